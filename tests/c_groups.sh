# SPDX-License-Identifier: Apache-2.0
# The groups of tests of the library for programs in C. tests/c.sh runs two of them at a time, each in an empty folder of its own. It
# sets `top`; `room`, the folder of what it compiled; `archive` and `queues`, the proved libraries; `kit`, the sources of a device;
# and `uring`, the flag by which liburing is linked, where it is there.

# The VMM's side of a guest's memory and queues.
vmm="../real/vmm.c ../real/virtqueue.c"

# What the devices that people run have beside their device.
of_programs="../tools/program.c ../tools/counts.c"

# What several groups use, a line each: a name, and how it is compiled.
shared_programs() {
    echo "build_frontend compile frontend ../frontend.c"
    echo "build_ask compile ask ../ask.c ../ask_calls.c ../line_reasons.c"
    [ -n "$queues" ] || return 0
    echo "build_rng compile rng ../rng.c"
    echo "build_entropy compile entropy ../real/entropy.c $vmm"
    echo "build_disk compile disk ../real/disk.c $vmm"
    echo "build_guest compile guest guest.c $vmm"
    echo "build_blk compile blk -DBLK_THREADS ../blk.c"
    echo "build_covretin-net compile covretin-net ../tools/card.c $of_programs"
    [ -z "$uring" ] || echo "build_blk_in_kernel compile blk_in_kernel ../blk.c $uring"
}

# All groups, a line each: a name, and a command. What takes longest stands first, so that nobody waits for it at the end.
groups() {
    echo "scripts scripts"
    echo "installs installs"
    [ -n "$queues" ] || echo "devices echo queues and devices are left out: generated/ has no queues that are made of these sources"
    [ -z "$queues" ] || groups_of_devices
    for session in $fuzzed; do
        [ "$session$queues" = queue ] || echo "corpus_of_$session corpus $session"
    done
    cat <<END
glue glue
calls play calls sendmsg recvmsg poll connect covretin_answer_fd covretin_receive
serving_calls play serving_calls sendmsg recvmsg poll accept4 malloc calloc realloc covretin_backend_receive
display_calls play display_calls sendmsg recvmsg poll malloc calloc realloc
memory play memory malloc calloc realloc
given play given recvmsg
session play session
claims play claims
replies play replies
connection play connection
hostile play hostile
service play service
answers play answers
both play both
hostile_frontend play hostile_frontend
channel play channel
channel_session play channel_session
display play display
display_session play display_session
header_loop header_loop
figures figures
counts_each_call counts costs_of_each_call costs.py calls $archive
frontend_against_descriptors against descriptors fds python3 $top/c/tests/backend.py $room/descriptors.socket
daemon daemon
headers_c headers c cc c89 c99 c11 c17 c2x
headers_cc headers cc c++ c++11 c++14 c++17 c++20
lacks lacks
END
}

groups_of_devices() {
    cat <<END
device play device
programs programs
guest guest blk
disk disk blk
attacks attacks blk
fuzz_device fuzz_device
sandbox sandbox
device_costs device_costs
device_fails play device_fails epoll_ctl poll malloc calloc realloc
throws throws
queue play queue
held play held
blocked play blocked
blocked_in_debug blocked_in_debug
entropy twice entropy rng
card card
wire wire
counts_each_chain counts costs_of_each_chain chains.py --within $queues
frontend_against_rng against_device rng rng.socket
frontend_against_blk against_device blk blk.socket image 2
has_io_uring has_io_uring
END
    [ -z "$uring" ] || printf '%s_in_kernel %s blk_in_kernel\n' guest guest disk disk attacks attacks
}

# -- What they share --

# Says how a test of these scripts ended.
told() {
    if [ "$2" = 0 ]; then
        echo "$1: ok"
    else
        echo "$1: FAILED"
    fi
}

# Runs a program of tests, which says each itself; where it is stopped, that is one more that failed. What a sanitizer finds ends it
# with status 1, as a failed test does, but no line says so. What stands in `suffix` is put behind the name of each.
suffix=
runs() {
    "$@" >said 2>&1
    ended=$?
    sed "s/: ok\$/$suffix: ok/; s/: FAILED\$/$suffix: FAILED/" said
    case $ended in
    0) ;;
    1) grep -q ': FAILED$' said || told "$name (status 1)" 1 ;;
    *) told "$name (status $ended)" 1 ;;
    esac
}

# play NAME FUNCTION..: compiles the tests of a source, which replaces these functions, and runs them.
play() {
    tests=$1
    shift
    wraps=
    for function in "$@"; do wraps="$wraps -Wl,--wrap=$function"; done
    compile "$tests" "$tests.c" $wraps
    runs "$room/$tests"
}

# patient LIMIT PROCESS [OTHER..]: the status of a process in the background, which is ended where it has spent its limit.
patient() {
    "$top/scripts/patience.py" "$@" || kill "$2"
    wait "$2"
}

# The status of a device in the background that is told to end.
end() {
    kill "$1" 2>/dev/null
    wait "$1"
}

# What a device in this folder is given as its disk.
image() {
    seq 700000 | head -c 4194304 >image
}

# -- Sessions, scripts and what the fuzzers kept --

# Every script, over the proved library; and lines over the proved vhost-run, where it is there, else over one without proof.
scripts() {
    "$top/test" quick --jobs 1 scripts >said 2>&1
    ended=$?
    [ "$ended" = 0 ] || grep -v '^ok ' said
    told scripts_over_the_proved_library "$ended"
}

# What a session's fuzzer kept: what must hold there holds, ended everywhere, and whichever allocation fails.
corpus() {
    compile_fuzzer "$1" play cc -fsanitize=address,undefined "$top/c/fuzz/play.c" || exit 3
    ./play $(fuzzer_made "$1") "$top/c/fuzz/corpus/$1"/*
    told "corpus_of_$1" $?
}

# The loop at the head of a header (its prose is behind two spaces).
header_loop() {
    sed -n '/^ \*     while (error != /,/^ \*     }$/{s/^ \*     //; s/\([;{)]\)  .*/\1/; p}' "$top/include/covretin_backend.h" >header_loop.inc
    compile header_loop header_loop.c "-I$PWD"
    runs "$room/header_loop"
}

# Each figure of the benchmark, done ten times: what they cost is not judged.
figures() {
    compile_bench ./bench "$archive" "$top/c/covretin_memory.c" $queues || exit 3
    ./bench --try >said
    ended=$?
    grep -v ' 10$' said && ended=1
    told bench_does_each_figure "$ended"
}

# counts NAME SCRIPT WORD..: what the library does, in instructions: for each call of each session; or for a chain of each shape,
# whatever the ring's size.
counts() {
    test=$1
    script=$2
    shift 2
    "$top/scripts/costs/$script" "$@"
    ended=$?
    if [ "$ended" = 3 ]; then
        echo "$test: left out: valgrind is not there"
    else
        told "$test" "$ended"
    fi
}

# against NAME WORD BACKEND..: a frontend, told this word or none, against a backend in the background: what both print is compared.
against() {
    with=$1
    words=$2
    shift 2
    "$@" >served &
    backend=$!
    wait_for "$room/$with.socket" "$backend"
    "$room/frontend" "$room/$with.socket" ${words#-} >asked
    ended=$?
    [ "$ended" = 0 ] || kill "$backend" 2>/dev/null
    wait "$backend" || ended=1
    diff "$top/c/tests/expected/$with.frontend" asked || ended=1
    diff "$top/c/tests/expected/$with.backend" served || ended=1
    told "frontend_against_$with" "$ended"
}

# ./vhost-daemon may have to be compiled, so what asks it comes one after another: the example frontend, and the program that makes
# calls to any backend.
daemon() {
    against daemon - "$top/vhost-daemon" "$room/daemon.socket" 1
    runs python3 "$top/c/tests/ask.py" "$room/ask" "$top/vhost-daemon" "$top/vhost-run"
}

# -- Devices --

# The same, against an example device, which goes on.
against_device() {
    image
    "$room/$1" "$2" $3 $4 >served &
    backend=$!
    wait_for "$2" "$backend"
    "$room/frontend" "$2" fds >asked
    ended=$?
    end "$backend" || ended=1
    diff "$top/c/tests/expected/$1.frontend" asked || ended=1
    told "frontend_against_$1" "$ended"
}

# Its processor time is judged, so it has no sanitizer.
device_costs() {
    compile_plain device_costs device_costs.c
    runs "$room/device_costs"
}

throws() {
    call c++ -std=c++11 -g -O1 -Wall -Wextra -pedantic -Werror -fsanitize=address,undefined -fno-sanitize-recover=all -I"$top/include" \
        -c -o throws.o "$top/c/tests/throws.cpp"
    compile throws "$PWD/throws.o" -lstdc++
    runs "$room/throws"
}

blocked_in_debug() {
    compile blocked_in_debug -DCOVRETIN_DEBUG blocked.c $kit
    suffix=_in_debug
    runs "$room/blocked_in_debug"
}

# A frontend and a guest that do anything, for a hundred thousand steps.
fuzz_device() {
    compile fuzz_device ../fuzz/device.c
    "$room/fuzz_device" 1 100000 >said 2>&1 &
    patient 600 $!
    ended=$?
    [ "$ended" = 0 ] || cat said
    told fuzz_device "$ended"
}

card() {
    compile net ../net.c
    compile card card.c $vmm
    twice card net '; 106 frames were sent back, and 9 dropped'
}

# A card with another end, to which the guest's side sends frames, too.
wire() {
    compile wire wire.c $vmm
    printf '#!/bin/sh\nexec "%s/covretin-net" --socket-path="$1" --local=card --remote=far --queue-pairs=2\n' "$room" >"$room/wired"
    chmod +x "$room/wired"
    twice wire wired '; 41 frames were sent, 45 received, and 0 dropped' card
}

# A VMM's side of a device, with a guest, that comes twice: its name, the device's, what that says of each, and what else is asked with.
twice() {
    "$room/$2" socket >served &
    backend=$!
    wait_for socket "$backend"
    "$room/$1" socket ${4-} >asked && "$room/$1" socket ${4-} >>asked
    ended=$?
    [ "$ended" = 0 ] || tail -n 1 asked
    end "$backend" && [ "$(grep -cx "a frontend went: peer disconnected${3-}" served)" = 2 ] || ended=1
    told "$1" "$ended"
}

# The example disk, whose sectors a VMM's side of a disk reads and writes through its virtqueues; the rows of one with io_uring are
# named so.
disk() {
    for try in work regions log harm; do
        image
        "$room/$1" socket image 2 pipe >served &
        backend=$!
        "$room/disk" socket image "$backend" "$try" >asked &
        patient 120 $! "$backend"
        ended=$?
        [ "$ended" = 0 ] || tail -n 1 asked
        end "$backend" || ended=1
        told "disk_$try${1#blk}" "$ended"
    done
}

# A guest that asks it anything.
guest() {
    "$room/guest" "$room/$1" >asked 2>&1 &
    patient 120 $!
    ended=$?
    grep -a ': ok$' asked | sed "s/: ok/${1#blk}: ok/"
    [ "$ended" = 0 ] || { tail -n 1 asked; told "guest of $1 (status $ended)" 1; }
}

# Frontends that mean harm to it.
attacks() {
    suffix=${1#blk}
    runs python3 "$top/c/tests/disk_attacks.py" "$room/$1"
}

# Whether the disk that is compiled so has an io_uring; a system may refuse that to all programs.
has_io_uring() {
    if [ -z "$uring" ]; then
        echo "disk_has_io_uring: left out, and the rows of a disk in the kernel: liburing is not there"
        return
    fi
    if ! python3 -c 'import ctypes, sys; sys.exit(ctypes.CDLL(None).syscall(425, 1, ctypes.create_string_buffer(120)) < 0)'; then
        echo "disk_has_io_uring: left out: the system refuses io_uring"
        return
    fi
    seq 1000 >small
    "$room/blk_in_kernel" socket small >served &
    backend=$!
    wait_for socket "$backend"
    ls -l "/proc/$backend/fd" | grep -q 'anon_inode:\[io_uring\]'
    ended=$?
    end "$backend" || ended=1
    told disk_has_io_uring "$ended"
}

# The devices that people run.
programs() {
    compile covretin-blk ../tools/disk.c $of_programs $uring
    compile covretin-blk_stuck -DBLK_THREADS ../tools/disk.c $of_programs stuck_writes.c -Wl,--wrap=pwritev
    compile covretin-blk_coarse ../tools/disk.c $of_programs coarse_file.c -Wl,--wrap=pread,--wrap=pwrite,--wrap=preadv,--wrap=pwritev,--wrap=fallocate $uring
    compile covretin-rng ../tools/entropy.c $of_programs
    compile covretin-console ../tools/console.c $of_programs
    runs python3 "$top/c/tests/programs.py" "$room"
}

# -- In a sandbox --

# A device under a list, asked by a program, in whose words BACKEND is the device's number. Whether both end well.
in_sandbox() {
    device=$1
    shift
    python3 "$top/c/tests/sandbox.py" "$top/c/system_calls.txt" $device >served 2>&1 &
    backend=$!
    wait_for socket "$backend"
    program=$1
    shift
    "$program" $(echo "$*" | sed "s/BACKEND/$backend/") >asked 2>&1 &
    patient 120 $! "$backend"
    ended=$?
    end "$backend" && [ "$ended" = 0 ]
}

# Both example devices and the console by no system call but those of c/system_calls.txt, and what ends one that makes another. They
# are compiled as users have them.
sandbox() {
    mkdir "$room/plain"
    compile_plain plain/rng ../rng.c
    compile_plain plain/blk -DBLK_THREADS ../blk.c
    compile_plain plain/console ../tools/console.c ../tools/program.c ../tools/counts.c
    image
    in_sandbox "$room/plain/rng socket" "$room/entropy" socket
    told sandbox_of_the_source_of_entropy $?
    for try in work regions log harm; do
        in_sandbox "$room/plain/blk socket image 2 pipe" "$room/disk" socket image BACKEND "$try"
        told "sandbox_of_the_disk_$try" $?
    done
    sed 's/ io_submit / /' "$top/c/system_calls.txt" >fewer
    python3 "$top/c/tests/sandbox.py" fewer "$room/plain/rng" socket >served 2>&1 &
    backend=$!
    wait_for socket "$backend"
    "$room/entropy" socket >asked 2>&1 &
    asking=$!
    "$top/scripts/patience.py" 120 "$backend" "$asking"
    kill "$asking"
    wait "$backend"
    [ $? = 159 ] # by SIGSYS
    told sandbox_ends_who_makes_another_call $?
    printf '#!/bin/sh\nexec python3 "%s" "%s" "%s" "$@"\n' "$top/c/tests/sandbox.py" "$top/c/system_calls.txt" "$room/plain/console" >covretin-console
    chmod +x covretin-console
    python3 "$top/c/tests/programs.py" . console >said 2>&1 && grep -q ': ok$' said
    ended=$?
    [ "$ended" = 0 ] || cat said
    told sandbox_of_the_console "$ended"
    without_proc
}

# Where a device sees no /proc it knows no eventfd, and all else goes on.
without_proc() {
    as_root=
    [ "$(id -u)" = 0 ] || as_root=--map-root-user
    if ! unshare $as_root --mount mount -t tmpfs none /proc; then
        echo "sandbox_without_proc: left out: nothing can be mounted apart"
        return
    fi
    ended=0
    for column in 2 3; do
        rm -f socket # (one that was ended by a signal left it)
        unshare $as_root --mount sh -c "[ $column = 2 ] || mount -t tmpfs none /proc && exec '$room/plain/rng' socket pipe" >served &
        backend=$!
        wait_for socket "$backend"
        grep -v '^#' "$top/c/tests/expected/proc.txt" | cut -d '|' -f "$column" >wanted
        grep -v '^#' "$top/c/tests/expected/proc.txt" | cut -d '|' -f 1 | "$room/ask" --limit=1000 socket >asked || ended=1
        cut -d ' ' -f 3- asked | sed 's/^ok .*/ok/' | diff wanted - || ended=1
        end "$backend" || ended=1
    done
    told sandbox_without_proc "$ended"
}

# -- Headers, and the library's C by itself --

# The headers alone, in each standard of a language.
headers() {
    language=$1
    compiler=$2
    shift 2
    {
        printf '#include "covretin_%s.h"\n' backend_socket channel_socket device display_socket queue socket
        printf 'uint64_t features(void);\n'
        printf 'uint64_t features(void) { return COVRETIN_ASKED_PROTOCOL_FEATURES | COVRETIN_SERVED_PROTOCOL_FEATURES; }\n'
    } >"headers.$language"
    for standard in "$@"; do
        "$compiler" -std="$standard" -Wall -Wextra -pedantic -Werror -I"$top/include" -c "headers.$language" -o headers.o
        told "headers_in_$standard" $?
    done
}

# The library's C, in each standard that it may be compiled by: all that a compiler warns of in the first; in the others, what is of
# the language.
glue() {
    for source in "$top"/c/covretin_*.c "$top"/c/vhost_run_*.c "$top/c/line_reasons.c"; do
        for standard in c11 c17 c2x; do
            [ "$standard" = c11 ] || only=-fsyntax-only
            cc -std="$standard" -O2 -Wall -Wextra -Wshadow -Wconversion -pedantic -Werror -I"$top/include" ${only-} -c "$source" -o glue.o
            told "$(basename "$source" .c)_in_$standard" $?
        done
        only=
    done
}

# -- What is installed --

# One after another: each takes what those before it left.
installs() {
    installs_the_same
    installs_all
    installs_the_programs
    completes
    statuses
    serves_an_example
    describes_devices
    runs_over_musl
    uninstalls
}

# What make installs here and of a copy elsewhere is the same, whoever may read there.
installs_the_same() {
    mkdir elsewhere
    cp -pr "$top/Makefile" "$top/covretin" "$top/VERSION" "$top/include" "$top/c" "$top/man" "$top/protocol" "$top/generated" elsewhere/
    mkdir -p elsewhere/scripts/build && cp -p "$top/scripts/build/needs.sh" "$top/scripts/build/manual.awk" elsewhere/scripts/build/
    make -s -C "$top" BUILD="$PWD/build" install DESTDIR="$PWD/system" PREFIX=/usr &&
        (umask 077 && make -s -C elsewhere install DESTDIR="$PWD/second" PREFIX=/usr) && diff -r system second &&
        [ -z "$(find second ! -type l ! -perm -444)" ]
    told install_is_the_same_elsewhere $?
    told=0
    for name in covretin covretin_queue; do
        grep -q '^logic=proved ' "$PWD/system/usr/share/covretin/$name.verdict" || told=1
    done
    told install_has_the_verdict "$told"
    # (what named the place of its sources would name a folder of this room in the copy's; the checkout's own path, as /covretin, may be a
    # word of theirs)
    grep -rqaF "$room" system second
    [ $? = 1 ] # (2 where it could not read)
    told install_names_no_place $?
}

# What it installs is all that a program needs, static or shared, and gives no name but its own to others.
installs_all() {
    libraries=$PWD/system/usr/lib
    export PKG_CONFIG_PATH="$libraries/pkgconfig" PKG_CONFIG_SYSROOT_DIR="$PWD/system"
    flags=$(pkg-config --cflags --libs covretin)
    static=$(echo "$flags" | sed 's/-lcovretin/-l:libcovretin.a/')
    tests="$top/c/tests/session.c $top/c/tests/alone.c $top/c/tests/testing.c"
    cc -std=gnu11 -o ./linked $tests $flags && LD_LIBRARY_PATH="$libraries" ./linked >said
    told install_links_shared $?
    cc -std=gnu11 -o ./linked $tests $static && ./linked >said
    told install_links_static $?
    readelf -d "$libraries/libcovretin.so" | grep -q 'SONAME.*libcovretin\.so\.[0-9]*]'
    told install_has_a_soname $?
    nm -D --defined-only --with-symbol-versions "$libraries/libcovretin.so" | grep -q ' T covretin_open@@COVRETIN_0$'
    told install_has_symbol_versions $?
    grep -oh 'covretin_[a-z0-9_]*(' system/usr/include/*.h | tr -d '(' | sort -u >declared
    for file in libcovretin.a libcovretin.so; do
        dynamic=
        [ "$file" = libcovretin.a ] || dynamic=-D
        nm $dynamic -g --defined-only --without-symbol-versions "$libraries/$file" | awk '$2 == "T" { print $3 }' | sort >names
        diff declared names
        told "install_exports_what_is_declared_in_$file" $?
    done
    sed -n 's/^ \(covretin_.*\)@COVRETIN_0 .*/\1/p' "$top/debian/libcovretin0.symbols" | sort | diff declared -
    told symbols_file_of_debian_has_each_function $?
    [ "$(pkg-config --modversion covretin)" = "$(cat "$top/VERSION")" ]
    told install_has_the_version $?
    installs_the_manual
}

# Each function of the headers has a page, which leads to that of its header, where it stands with what the header says of it.
installs_the_manual() {
    manual=system/usr/share/man
    told=0
    while read -r name; do
        page=$(sed 's/^\.so //' "$manual/man3/$name.3") && grep -qx ".SS $name" "$manual/$page" || { echo "no page has $name"; told=1; }
    done <declared
    [ "$(cat "$manual"/man3/*.3 | grep -c '^\.SS ')" = "$(wc -l <declared)" ] || { echo "the pages have other functions"; told=1; }
    grep -q 'No call raises SIGPIPE, and no signal interrupts one' "$manual/man3/covretin_socket.3" || told=1
    told manual_has_each_function "$told"
}

# What bash completes behind covretin is what its help says.
completes() {
    completed=$(PATH=$PWD/system/usr/bin:$PATH bash -c '. "$0"
        complete_words() { COMP_WORDS=("$@"); COMP_CWORD=$(($# - 1)); COMPREPLY=(); _covretin; echo "${COMPREPLY[*]}"; }
        complete_words covretin n
        complete_words covretin serve ""
        complete_words covretin disk --blk
        complete_words covretin nothing --' system/usr/share/bash-completion/completions/covretin)
    [ "$(echo $completed)" = 'net example --blk-file=' ]
    told bash_completes_commands_and_options $?
}

# What it installs is one program by which the others are run.
installs_the_programs() {
    told=0
    program=$PWD/system/usr/bin/covretin
    [ "$("$program" --version)" = "covretin $(cat "$top/VERSION")" ] || told=1
    printf 'get_features\n' >one_line
    for words in "ask --version" run "serve example --version"; do
        "$program" $words <one_line >said || told=1
        [ -s said ] || told=1
    done
    told install_runs_each_program "$told"
}

# They have one table of statuses.
statuses() {
    told=0
    while read -r status words; do
        "$program" $words <one_line >said 2>wrong
        [ $? = "$status" ] || { echo "$words: not $status"; told=1; }
        [ "$status" = 0 ] || [ -s wrong ] || told=1
    done <<END
2
2 nothing
2 --nothing
2 ask
2 ask --nothing
2 run --nothing
2 serve
2 serve here 1
2 disk --socket-path=here
2 rng --nothing
2 net --socket-path=here
2 console --socket-path=here
4 disk --socket-path=here --blk-file=$PWD/none/file
3 tap listen connect
3 replay file
4 ask $PWD/none/socket
0 --help
0 ask --help
0 disk --help
0 serve --help
0 rng --print-capabilities
END
    told commands_have_one_table_of_statuses "$told"
}

serves_an_example() {
    "$program" serve example socket 1 >served &
    backend=$!
    wait_for socket "$backend"
    # (a request that nobody serves ends no session of Standard's)
    python3 -c 'import socket, sys
it = socket.socket(socket.AF_UNIX)
it.connect(sys.argv[1])
it.sendall(bytes.fromhex("c80000000100000000000000010000000100000000000000"))
it.shutdown(socket.SHUT_WR)
while it.recv(64): pass' socket
    wait "$backend" && grep -qx 'session 1: 2 requests, end Disconnected' served
    told serve_example_is_standard $?
}

# What a VMM and systemd read to start a device.
describes_devices() {
    python3 "$top/c/tests/backend_schema.py" system
    told descriptor_files_are_of_the_schema $?
    told=0
    for unit in system/usr/lib/systemd/system/covretin-*; do
        ! grep -q '@[A-Z]*@' "$unit" || told=1
        started=$(sed -n 's/^ExecStart=\([^ ]*\).*/\1/p' "$unit")
        [ -x "system$started" ] || told=1
    done
    told units_start_what_is_installed "$told"
}

# What the proved programs take of the C library is all that there is in another one, too.
runs_over_musl() {
    if ! command -v musl-gcc >/dev/null; then
        echo "vhost_run_over_musl: left out: musl-gcc is not there"
        return
    fi
    make -s -C "$top" BUILD="$PWD/musl" CC=musl-gcc "$PWD/musl/vhost-run" &&
        [ "$(echo get_features | musl/vhost-run)" = "$(echo get_features | system/usr/bin/vhost-run)" ] &&
        musl/vhost-run --version | grep -q '^vhost-run '
    told vhost_run_over_musl $?
}

uninstalls() {
    make -s -C "$top" BUILD="$PWD/build" uninstall DESTDIR="$PWD/system" PREFIX=/usr && [ -z "$(find system ! -type d)" ]
    told uninstall_leaves_nothing $?
}

# Where there is no C compiler that is what is told, and where nothing is installed there is nothing to remove.
lacks() {
    mkdir bare
    for tool in sh dirname readlink env python3 cat make uname; do
        ln -s "$(command -v "$tool")" "bare/$tool"
    done
    make -s -C "$top" BUILD="$PWD/none" CC=nosuch >said 2>&1
    [ $? = 2 ] && grep -q 'no C compiler nosuch on PATH' said
    told make_says_that_there_is_no_compiler $?
    ended=0
    while read -r system how; do
        echo "ID=$system" >os-release
        said=$(OS_RELEASE="$PWD/os-release" CC=nosuch PATH="$PWD/bare" "$top/scripts/build/needs.sh" cc headers make python3 pkg-config 2>&1)
        [ $? = 3 ] && [ "$said" = "there is no C compiler nosuch on PATH, no pkg-config on PATH: $how" ] || ended=1
    done <<END
debian apt-get install gcc libc6-dev pkg-config
fedora dnf install gcc pkgconf-pkg-config
alpine apk add gcc musl-dev linux-headers pkgconf
arch pacman -S gcc pkgconf
END
    told packages_are_named_for_four_systems "$ended"
    echo get_features | PATH="$PWD/bare" "$top/covretin" run >said 2>&1
    [ $? = 3 ] && grep -q 'no C compiler cc on PATH' said
    told covretin_says_that_there_is_no_compiler $?
    make -s -C "$top" BUILD="$PWD/none" uninstall DESTDIR="$PWD/nowhere" PREFIX=/usr
    told uninstall_of_nothing $?
}
