# SPDX-License-Identifier: Apache-2.0
# Which proved library the tests take: what ./test proofs, or scripts/build/c_library.py, made of the sources as they are; else generated/, where it
# was made of them, which needs no kit; else it is proved and built, which does. They set `top` and `room`, a folder of their own, and use
# `proved`, the archive or object with the source of the memory that it asks for.
find_library() {
    if "$top/scripts/build/c_library.py" --current; then
        archive=$top/crates/vhost_c/out/libvhost_c.a
    elif "$top/scripts/build/generate.py" --current x86_64/covretin; then
        archive=$room/proved.o
        cc -c -o "$archive" "$top/generated/x86_64-linux/covretin.s" || return 1
    else
        need_rt
        "$top/scripts/build/c_library.py" || return 1
        archive=$top/crates/vhost_c/out/libvhost_c.a
    fi
    proved="$archive $top/c/covretin_memory.c"
}

# The calls of queues, a proved library of their own, in `queues`: that of generated/, where it was made of these sources. Else they are
# left out, and `queues` is empty.
find_queues() {
    queues=
    "$top/scripts/build/generate.py" --current x86_64/covretin_queue || return 0
    queues=$room/queues.o
    cc -c -o "$queues" "$top/generated/x86_64-linux/covretin_queue.s"
}

# compile_bench FILE PART..: compiles the benchmark, c/bench, over the proved library, whose parts these are. Without that of queues there are no figures
# of them.
compile_bench() {
    to=$1
    shift
    case " $* " in
    */queues.o\ *) ;;
    *) set -- -DWITHOUT_QUEUES "$@" ;;
    esac
    cc -std=gnu11 -O2 -Wall -Wextra -pedantic -Werror -I"$top/include" -I"$top/c" -pthread -o "$to" "$top"/c/bench/*.c \
        "$top/c/covretin_socket.c" "$top/c/covretin_backend_socket.c" "$top/c/covretin_serving.c" "$top/c/covretin_transport.c" "$@"
}

# -- Fuzzers: which there are, and how one is compiled --

# The sessions that have one: both sides', both joined; both ends' of the backend channel, both joined; the device's on the
# vhost-user-gpu channel; both sides' over their sockets; and a queue, with its guest.
fuzzed='asking serving joined channel_asking channel_serving channel_joined display sockets queue'

# The sources of a session's fuzzer, without what makes it a program.
fuzzer_sources() {
    case $1 in
    asking) names='run asking asks' ;;
    serving) names='run serving serves' ;;
    joined) names='run joined asks serves' ;;
    channel_asking) names='run channel_asking channel_asks' ;;
    channel_serving) names='run channel_serving channel_serves' ;;
    channel_joined) names='run channel_joined channel_asks channel_serves' ;;
    queue) names='run queue queue_calls queue_crash queue_crash_packed queue_guest queue_model' ;;
    sockets)
        names='sockets asks serves'
        for glue in socket backend_socket channel_socket display_socket serving transport text; do echo "$top/c/covretin_$glue.c"; done
        echo "$top/c/tests/peer.c" "$top/c/tests/testing.c"
        ;;
    *) names="run $1" ;;
    esac
    for name in $names; do echo "$top/c/fuzz/$name.c"; done
}

# What else it is compiled with: allocations that fail, or a peer.
fuzzer_flags() {
    case $1 in
    sockets) echo "-I$top/c/tests" ;;
    *) echo -Wl,--wrap=malloc,--wrap=calloc,--wrap=realloc ;;
    esac
}

# The proved library that it tests.
fuzzer_proved() {
    case $1 in
    queue) echo "$queues" "$top/c/covretin_memory.c" ;;
    *) echo "$proved" ;;
    esac
}

# Whether it can be tested: queues are not where generated/ has none of these sources, and then that is told.
is_testable() {
    [ "$1" != queue ] || [ -n "$queues" ] || { echo "queue: left out: generated/ has no queues that are made of these sources"; return 1; }
}

# What is played beside the inputs that are kept: of queues some inputs that are made, whose bytes are as they fall.
fuzzer_made() {
    case $1 in
    queue) echo --made 1000 ;;
    esac
}

# Compiles it to a file, by this compiler, with these flags and sources more.
compile_fuzzer() {
    session=$1
    to=$2
    compiler=$3
    shift 3
    "$compiler" -std=gnu11 -g -O1 -Wall -Wextra -pedantic -Werror -fno-sanitize-recover=all -I"$top/include" -o "$to" "$@" \
        $(fuzzer_flags "$session") $(fuzzer_sources "$session") $(fuzzer_proved "$session")
}

# -- The device kits, which a hostile frontend and guest attack --

# Those of C and Rust.
kits='device device_in_rust'

# compile_kit_in_c FILE: the fuzzer over the kit in C.
compile_kit_in_c() {
    cc -std=gnu11 -g -O1 -Wall -Wextra -pedantic -Werror -fsanitize=address,undefined -fno-sanitize-recover=all -I"$top/include" -pthread -o "$1" \
        "$top/c/fuzz/device.c" "$top"/c/covretin_device*.c "$top/c/covretin_log.c" "$top"/c/covretin_*socket.c "$top/c/covretin_serving.c" \
        "$top/c/covretin_transport.c" "$top/c/covretin_text.c" "$queues" $proved
}

# compile_kit_in_rust FILE PACKAGE FOLDER: the same over that in Rust, of which PACKAGE is the folder `rust`. Cargo leaves what it makes in FOLDER. It
# is under the address sanitizer where the toolchain has that.
compile_kit_in_rust() {
    file=$1 package=$2 folder=$3
    renamed=
    for it in device_open_fd device_serve device_stop device_close device_take request_read request_write request_done request_take requests_take requests_done; do
        renamed="$renamed -Dcovretin_$it=kit_$it"
    done
    set -- "$(rustc --print target-libdir)"/librustc-*_rt.asan.a
    checks=
    [ ! -f "$1" ] || checks="-Wl,--whole-archive $1 -Wl,--no-whole-archive -lstdc++ -rdynamic"
    host=$(rustc -vV | sed -n 's/^host: //p')
    (cd "$package/fuzz/kit" && RUSTC_BOOTSTRAP=1 RUSTFLAGS=${checks:+-Zsanitizer=address} cargo build --config "$package/debian.toml" --offline --quiet \
        --target "$host" --target-dir "$folder") &&
        cc -std=gnu11 -g -O1 -Wall -Wextra -pedantic -Werror -I"$top/include" $renamed -o "$file" "$top/c/fuzz/device.c" \
            "$folder/$host/debug/libcovretin_fuzz_kit.a" $checks -pthread -ldl -lm
}
