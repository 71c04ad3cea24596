#!/bin/sh
# SPDX-License-Identifier: Apache-2.0
# Tests the package for programs in Rust. './test rust --help' says more.
top=$(cd "$(dirname "$0")/.." && pwd) || exit 3
program="test rust"

usage() {
    cat <<END
usage: ./test rust            builds the package for programs in Rust over the proved library, and tests it: each call of both
                              sides over a socket with descriptors, refused calls, hostile replies and requests, peers that
                              die or are slow, threads, the names of the crate vhost; covretin-tap over recorded sessions, and
                              between two sides, and its packets as Wireshark shows them; covretin-check over planted faults and over the devices here; its examples against each other, against ./vhost-daemon and the frontend in
                              C, against QEMU's storage daemon, and as the disk that a machine boots from; that it is
                              formatted, linted and documented; and that rust/vhost, the package under the crate's own name,
                              has each of its names. Open descriptors are counted, and all is run under the address sanitizer
                              again. What a program is missing for is left out: rt, cc, clippy, the sanitizer, QEMU, tshark
       ./test rust --help     shows this
       ./test rust --version  prints the version

Prints a line for each test, and last 'N passed, M failed'. The proved part is generated/, as it goes out, where that was made of
these sources; else what ./test proofs left, or it is proved and built, which takes the command rt of the Rattle kit, and an hour of one
processor. With COVRETIN_LIB_DIR set, the library in that folder is tested in its place.

Needed: cargo 1.63 or later and rustfmt, and cargo's clippy where it is to be linted; of Debian 12 or 13 the packages
librust-bitflags-1-dev, librust-libc-dev, librust-log-dev, librust-uuid-dev and librust-vm-memory-dev; and make, cc and python3. For the machine
python3, cpio, e2fsprogs, and of Debian 12 qemu-system-x86, linux-image-amd64 and busybox-static.

Where COVRETIN_CRATES is set the tests of vhost-user-backend are played over rust/vhost and rust/virtio-queue, rust/examples/rng is built
and checked, rust/fuzz is played, with the crate of that folder or the sources that COVRETIN_VHOST names, and so is rust/virtio-queue; else
lines say that they are not.
$(crates_help)

Status: 0 where all passed; 1 where a test failed; 2 after wrong arguments; 3 where something is missing, or could not be built.
END
}

. "$top/scripts/build/crates.sh"
. "$top/scripts/build/options.sh"
. "$top/scripts/build/library.sh"
. "$top/tests/waiting.sh"
[ $# = 0 ] || refuse
for tool in cargo rustfmt python3; do
    command -v "$tool" >/dev/null || { tell "no $tool on PATH"; exit 3; }
done

packages=$(missing_packages)
[ -z "$packages" ] || { tell "crates are missing: apt-get install$packages"; exit 3; }

room=$(mktemp -d) || exit 3
trap 'rm -rf "$room"' EXIT
trap 'exit 3' HUP INT TERM
# The library for the frontend in C, and for the package where generated/ is of other sources.
if "$top/scripts/build/generate.py" --current x86_64/covretin; then
    make -s -C "$top" BUILD="$room/build" || exit 3
else
    find_library && make -s -C "$top" BUILD="$room/build" PROVED="$archive" || exit 3
    COVRETIN_LIB_DIR=${COVRETIN_LIB_DIR:-$room/build}
fi
if [ -n "${COVRETIN_LIB_DIR-}" ]; then
    [ -f "$COVRETIN_LIB_DIR/libcovretin.a" ] || { tell "no libcovretin.a in $COVRETIN_LIB_DIR"; exit 3; }
    COVRETIN_LIB_DIR=$(cd "$COVRETIN_LIB_DIR" && pwd) || exit 3
    export COVRETIN_LIB_DIR
fi

# A copy of the package with the header and a page beside it, so that cargo leaves nothing in the checkout.
mkdir "$room/rust" "$room/docs" && cp -r "$top/include" "$room/" && cp "$top/docs/TAP.md" "$room/docs/" || exit 3
for it in Cargo.toml README.md build.rs check debian.toml examples fuzz rustfmt.toml src tests vhost virtio-queue; do
    cp -r "$top/rust/$it" "$room/rust/" || exit 3
done
cp -r "$top/generated" "$room/" || exit 3
cd "$room/rust" || exit 3

# Cargo, over the crates that Debian packages.
run_cargo() {
    command=$1
    shift
    cargo "$command" --config "$room/rust/debian.toml" --offline --quiet "$@"
}

# Says how a test of this script ended.
told() {
    if [ "$2" = 0 ]; then
        echo "$1: ok"
    else
        echo "$1: FAILED"
    fi
}

# Runs a command for at most so many seconds, of a processor or of waiting for nothing (scripts/patience.py); then it is killed.
within() {
    limit=$1
    shift
    "$@" &
    ran=$!
    "$top/scripts/patience.py" "$limit" "$ran" || pkill -9 -P "$ran" || kill -9 "$ran"
    wait "$ran"
}

# The tests of a file, a line for each, and what the failed ones say; where their program is stopped, that is one more that failed.
# With --ignored those that need another program, which an exported name says.
play() {
    file=$1
    shift
    within 600 cargo test --config debian.toml --offline --quiet --test "$file" -- --format=pretty "$@" >"$room/said" 2>&1
    ended=$?
    sed -n "s/^test \(.*\) \.\.\. ok\$/$file::\1: ok/p; s/^test \(.*\) \.\.\. FAILED\$/$file::\1: FAILED/p" "$room/said"
    [ "$ended" != 0 ] || return
    cat "$room/said"
    grep -q '^test .* FAILED$' "$room/said" || told "$file (status $ended)" 1
}

# The tests that stand beside what they test.
play_units() {
    run_cargo test --lib >"$room/said" 2>&1
    ended=$?
    [ "$ended" = 0 ] || cat "$room/said"
    told units "$ended"
}

# All of them again under the address sanitizer, where the toolchain has it: it finds memory that is lost, too.
play_sanitized() {
    set -- "$(rustc --print target-libdir)"/librustc-*_rt.asan.a
    [ -f "$1" ] || return
    host=$(rustc -vV | sed -n 's/^host: //p')
    within 1200 env RUSTC_BOOTSTRAP=1 RUSTFLAGS=-Zsanitizer=address cargo test --config debian.toml --offline --quiet --target "$host" --tests \
        >"$room/said" 2>&1
    ended=$?
    [ "$ended" = 0 ] || cat "$room/said"
    told under_the_address_sanitizer "$ended"
}

# The fuzzer of the kit in C, whose frontend and guest attack this one: no step waits, no descriptor is lost, and nothing panics.
attacks_the_kit() {
    if ! command -v cc >/dev/null; then
        echo "fuzz_kit: left out: no cc on PATH"
        return
    fi
    (compile_kit_in_rust "$room/fuzz_kit" "$room/rust" "$room/rust/target" && within 600 "$room/fuzz_kit" 1 100000) >"$room/said" 2>&1
    ended=$?
    [ "$ended" = 0 ] || cat "$room/said"
    told fuzz_kit "$ended"
}

# The examples in the documentation.
play_documentation() {
    run_cargo test --doc >"$room/said" 2>&1
    ended=$?
    [ "$ended" = 0 ] || cat "$room/said"
    told documentation "$ended"
}

# The sessions that the library's backend is tested by, as the tap judges them.
judges_the_scripts() {
    export COVRETIN_SCRIPTS="$top/tests/scripts"
    play tap_scripts --ignored
}

# The tap's packets, as Wireshark shows them, where tshark is there.
dissects_packets() {
    command -v tshark >/dev/null || { echo "dissected: not played, since tshark is not there"; return; }
    within 600 "$top/tests/programs/try_dissector.py" target/debug/covretin-tap >"$room/said" 2>&1
    ended=$?
    [ "$ended" = 0 ] || cat "$room/said"
    told dissected "$ended"
}

# The example against the daemon, where there is rt to compile that.
asks_the_daemon() {
    command -v rt >/dev/null || return
    "$top/vhost-daemon" "$room/daemon.socket" 1 >"$room/daemon" 2>&1 &
    daemon=$!
    wait_for "$room/daemon.socket" "$daemon"
    run_cargo run --example ask -- "$room/daemon.socket" >"$room/said" 2>&1
    ended=$?
    [ "$ended" = 0 ] || kill "$daemon" 2>/dev/null
    wait "$daemon" || ended=1
    diff tests/expected/daemon.ask "$room/said" || ended=1
    told ask_against_daemon "$ended"
}

# The example against QEMU's storage daemon, where that is there: a backend that others wrote.
asks_the_storage_daemon() {
    command -v qemu-storage-daemon >/dev/null || return
    qemu-storage-daemon --blockdev driver=null-co,node-name=disk,size=1048576 \
        --export type=vhost-user-blk,id=export,node-name=disk,addr.type=unix,addr.path="$room/disk.socket" >"$room/daemon" 2>&1 &
    daemon=$!
    wait_for "$room/disk.socket" "$daemon"
    run_cargo run --example ask -- "$room/disk.socket" >"$room/said" 2>&1 &&
        grep -q '^protocol features: .*CONFIG' "$room/said" && grep -q '^rings: 1$' "$room/said"
    ended=$?
    [ "$ended" = 0 ] || cat "$room/daemon" "$room/said"
    told ask_against_storage_daemon "$ended"
    asks_through_the_tap "$room/disk.socket"
    kill "$daemon" 2>/dev/null
    wait "$daemon"
}

# The same before a backend that the tap passes it on to: it prints what it printed before, and nothing is wrong.
asks_through_the_tap() {
    target/debug/covretin-tap --count=1 "$room/tap.socket" "$1" >"$room/tapped" 2>&1 &
    tap=$!
    wait_for "$room/tap.socket" "$tap"
    run_cargo run --example ask -- "$room/tap.socket" 2>&1 | diff "$room/said" - && wait "$tap"
    ended=$?
    [ "$ended" = 0 ] || { kill "$tap" 2>/dev/null; cat "$room/tapped"; }
    told ask_through_the_tap "$ended"
}

# The status says of what kind an error was: of the arguments, or of the system.
ends_by_its_kind() {
    ended=0
    for example in ask disk entropy serve vsock; do
        target/debug/examples/"$example" 2>"$room/said"
        [ $? = 1 ] && grep -q "^usage: $example " "$room/said" || ended=1
    done
    target/debug/examples/ask "$room/nobody.socket" 2>"$room/said"
    [ $? = 2 ] && grep -q "^$room/nobody.socket: " "$room/said" || ended=1
    target/debug/examples/serve "$room/no_folder/socket" 1 2>"$room/said"
    [ $? = 2 ] && grep -q "^$room/no_folder/socket: " "$room/said" || ended=1
    told examples_end_by_the_kind_of_error "$ended"
}

# The frontend in C, where there is a compiler.
compile_frontend() {
    command -v cc >/dev/null && cc -std=gnu11 -O1 -I"$top/include" -o "$room/frontend" "$top/c/frontend.c" "$room/build/libcovretin.a"
}

# The example device, which is the daemon's, against the example that asks and the frontend in C; a line says how each session ended.
serves_the_frontends() {
    target/debug/examples/serve "$room/serve.socket" 2 >"$room/daemon" 2>&1 &
    daemon=$!
    wait_for "$room/serve.socket" "$daemon"
    run_cargo run --example ask -- "$room/serve.socket" >"$room/said" 2>&1 && diff tests/expected/daemon.ask "$room/said" &&
        "$room/frontend" "$room/serve.socket" >"$room/said" 2>&1 && diff "$top/c/tests/expected/daemon.frontend" "$room/said"
    ended=$?
    [ "$ended" = 0 ] || kill "$daemon" 2>/dev/null
    wait "$daemon" || ended=1
    diff tests/expected/serve.lines "$room/daemon" || ended=1
    told serve_against_frontends "$ended"
}

# Both, where there is a compiler of C.
serves_the_programs_in_c() {
    compile_frontend || return
    serves_the_frontends
    export COVRETIN_FRONTEND="$room/frontend"
    play against_c --ignored
}

# A guest against the example disk.
asks_the_disk() {
    export COVRETIN_DISK="$room/rust/target/debug/examples/disk"
    play disk --ignored
}

# The same of a disk that makes no system call but those of two lists: another would end it. (under a filter no socket's linger time is ended)
asks_the_confined_disk() {
    command -v python3 >/dev/null && command -v cc >/dev/null || return
    cat "$top/c/system_calls.txt" "$top/rust/system_calls.txt" >"$room/system_calls"
    cat >"$room/confined_disk" <<END
#!/bin/sh
exec python3 "$top/c/tests/sandbox.py" "$room/system_calls" "$room/rust/target/debug/examples/disk" "\$@"
END
    chmod +x "$room/confined_disk"
    COVRETIN_DISK="$room/confined_disk" within 600 cargo test --config debian.toml --offline --quiet --test disk -- --ignored --skip sockets_that_linger \
        >"$room/said" 2>&1
    ended=$?
    [ "$ended" = 0 ] || cat "$room/said"
    told sandbox_of_the_disk "$ended"
}

# A guest against the examples over the kit for devices.
asks_the_kit() {
    export COVRETIN_EXAMPLES="$room/rust/target/debug/examples"
    play kit_examples --ignored
}

# Whether all is there that a machine boots by.
can_boot() {
    for tool in qemu-system-x86_64 python3 cpio mke2fs as ld; do
        command -v "$tool" >/dev/null || return
    done
    [ -f "$top/c/real/machine.py" ] && [ -x /usr/bin/busybox ] && [ -n "$(ls /boot/vmlinuz-* 2>/dev/null)" ]
}

# QEMU's firmware and Linux boot from the example disk, mount it and write, and a second boot reads that; memory is plugged in and out; the
# disk grows; and the same through the tap, which finds nothing wrong. The kit's source of entropy serves a machine beside it.
boots_machines() {
    can_boot || { echo "disk_boots, entropy_serves_a_machine, ..: not played, since QEMU, or what a machine boots by, is not there"; return; }
    run_cargo build --release --example disk --example entropy --bin covretin-tap && as --32 "$top/c/real/boot.S" -o "$room/boot.o" &&
        ld -m elf_i386 -Ttext=0x7c00 --entry=start --oformat binary "$room/boot.o" -o "$room/boot" || { told disk_boots 1; return; }
    # The disk ends by a signal, which its status would say.
    cat >"$room/disk" <<END
#!/bin/sh
$room/rust/target/release/examples/disk "\$@" &
trap 'kill \$!; exit 0' TERM
wait
END
    cat >"$room/tapped_disk" <<END
#!/bin/sh
$room/rust/target/release/examples/disk "\$1.disk" "\$2" "\$3" &
disk=\$!
while [ ! -S "\$1.disk" ] && kill -0 "\$disk"; do sleep 0.1; done
$room/rust/target/release/covretin-tap "\$1" "\$1.disk" &
tap=\$!
trap 'kill \$tap; wait \$tap; ended=\$?; kill \$disk; exit \$ended' TERM
wait
END
    chmod +x "$room/disk" "$room/tapped_disk"
    plays_machine disk_boots machine.py boot "$room/disk" "$room/boot"
    plays_machine disk_boots_through_the_tap machine.py boot "$room/tapped_disk" "$room/boot"
    plays_machine disk_memory machine.py memory "$room/disk" "$room/boot"
    plays_machine disk_resized machine.py resized "$room/disk" "$room/boot"
    plays_machine entropy_serves_a_machine machine.py entropy "$room/disk" "$room/boot" "$room/rust/target/release/examples/entropy"
}

# A machine without a guest goes over to another, over two of the example disk: by its dirty log, and by postcopy, where a userfaultfd may be
# made that waits for the system's own page faults.
moves_machines() {
    [ -x "$room/disk" ] || return
    plays_machine disk_precopy halted.py precopy "$room/disk"
    if may_wait_for_pages; then
        plays_machine disk_postcopy halted.py postcopy "$room/disk"
    else
        echo "disk_postcopy: not played, since it needs CAP_SYS_PTRACE, or 1 in /proc/sys/vm/unprivileged_userfaultfd"
    fi
}

may_wait_for_pages() {
    [ $((0x$(sed -n 's/^CapEff:[[:space:]]*//p' /proc/self/status) >> 19 & 1)) = 1 ] ||
        [ "$(cat /proc/sys/vm/unprivileged_userfaultfd 2>/dev/null)" = 1 ]
}

# A try of c/real, by its name here, in a folder of its own.
plays_machine() {
    try=$1
    mkdir "$room/$try" && (cd "$room/$try" && shift && script=$1 && shift &&
        within 600 python3 -B "$top/c/real/$script" "$@") >"$room/said" 2>&1
    ended=$?
    [ "$ended" = 0 ] || cat "$room/said" "$room/$try/disk.log"
    told "$try" "$ended"
}

# Each figure of the bench, in a few turns: what they cost is not judged.
measures() {
    run_cargo run --release --example bench -- 3 >"$room/said" 2>&1 && [ "$(grep -c '^threads_' "$room/said")" = 3 ]
    ended=$?
    [ "$ended" = 0 ] || cat "$room/said"
    told bench "$ended"
}

# A library of C's kind over the package offers the names of its own alone.
hides_its_names() {
    mkdir -p "$room/shared/src" && cat >"$room/shared/Cargo.toml" <<END && cat >"$room/shared/src/lib.rs" <<'END' || exit 3
[package]
name = "shared"
version = "0.1.0"
edition = "2021"
[lib]
crate-type = ["cdylib"]
[dependencies]
covretin = { path = "$room/rust" }
END
#[no_mangle]
pub extern "C" fn queues(size: u16) -> bool {
    covretin::queue::Queue::new(size).is_ok()
}
END
    (cd "$room/shared" && run_cargo build) >"$room/said" 2>&1 &&
        [ "$(nm --dynamic --defined-only --format=just-symbols "$room/shared/target/debug/libshared.so")" = queues ]
    ended=$?
    [ "$ended" = 0 ] || { cat "$room/said"; nm --dynamic --defined-only "$room/shared/target/debug/libshared.so"; }
    told hides_its_names "$ended"
}

# The package takes a library that make built; and of another machine, or a folder without one, it says what to do.
chooses_the_library() {
    COVRETIN_LIB_DIR=$room/build CARGO_TARGET_DIR=$room/linked run_cargo test --test calls >"$room/said" 2>&1
    ended=$?
    [ "$ended" = 0 ] || cat "$room/said"
    told links_what_make_built "$ended"
    ! COVRETIN_LIB_DIR=$room/no_folder run_cargo check 2>"$room/said" && grep -q "no $room/no_folder/libcovretin.a: 'make' makes it" "$room/said"
    told says_how_to_make_the_library $?
    set -- target/debug/build/covretin-*/build-script-build
    ! env -u COVRETIN_LIB_DIR CARGO_CFG_TARGET_ARCH=riscv64 CARGO_CFG_TARGET_OS=linux TARGET=riscv64gc-unknown-linux-gnu "$1" >"$room/said" 2>&1 &&
        grep -q 'there is no proved code for riscv64gc-unknown-linux-gnu' "$room/said"
    told says_for_which_machines_it_is $?
    (COVRETIN_LIB_DIR=none run_cargo check) && (unset COVRETIN_LIB_DIR && export DOCS_RS=1 && run_cargo doc --no-deps)
    told documents_without_a_library $?
}

# The package under the crate's name: what it has not is an error that says so, and each name of the crate is there.
stands_for_the_crate() {
    for folder in vhost vhost/compat-0_17; do
        (cd "$folder" && RUSTFLAGS="-D warnings" run_cargo check --features vhost-user-frontend,vhost-user-backend,postcopy,test-utils)
        told "${folder}_builds" $?
    done
    ended=0
    for feature in xen vhost-kern vhost-net vhost-vdpa vhost-vsock; do
        (cd vhost && run_cargo check --features "$feature") 2>"$room/said" && ended=1
        grep -q "error: the feature \`$feature\` of vhost, .*, is not in Covretin" "$room/said" || ended=1
    done
    told says_which_features_it_has_not "$ended"
    (cd vhost && RUSTDOCFLAGS="-D warnings" run_cargo doc --no-deps --all-features) && RUSTDOCFLAGS="-D warnings" run_cargo doc --no-deps --all-features
    told documented_with_all_features $?
    "$top/tests/rust_names.py" >"$room/said" 2>&1
    ended=$?
    [ "$ended" = 0 ] || cat "$room/said"
    told names_of_the_crate "$ended"
}

# A program of the crate, which the patch line alone changes, asks the example device.
patches_a_program() {
    mkdir -p "$room/program/src" && cat >"$room/program/Cargo.toml" <<END && cat >"$room/program/src/main.rs" <<'END' || exit 3
[package]
name = "program"
version = "0.1.0"
edition = "2021"
[dependencies]
vhost = { version = "0.18", features = ["vhost-user-frontend", "postcopy-frontend"] }
[patch.crates-io]
vhost = { path = "$room/rust/vhost" }
END
use vhost::vhost_user::{Frontend, VhostUserFrontend};
use vhost::VhostBackend;

fn main() -> Result<(), vhost::Error> {
    let mut frontend = Frontend::connect(std::env::args().nth(1).unwrap(), 1)?;
    frontend.set_owner()?;
    let features = frontend.get_features()?;
    frontend.set_features(features)?;
    let offered = frontend.get_protocol_features()?;
    frontend.set_protocol_features(offered & Frontend::PROTOCOL_FEATURES)?;
    println!("{} rings", frontend.get_queue_num()?);
    Ok(())
}
END
    target/debug/examples/serve "$room/program.socket" 1 >"$room/daemon" 2>&1 &
    daemon=$!
    wait_for "$room/program.socket" "$daemon"
    (cd "$room/program" && run_cargo run -- "$room/program.socket") >"$room/said" 2>&1 && grep -q '^[0-9]* rings$' "$room/said"
    ended=$?
    [ "$ended" = 0 ] || { kill "$daemon" 2>/dev/null; cat "$room/said"; }
    wait "$daemon"
    told patches_a_program "$ended"
}

# The tests of the crate that most daemons stand on, which is not changed.
plays_what_stands_on_it() {
    if ! folder_of vhost-user-backend >"$room/said"; then
        echo "vhost-user-backend: not played, since COVRETIN_CRATES names no folder that has it"
        return
    fi
    workspace_of vhost-user-backend "$room/over" "$room" &&
        (cd "$room/over" && within 1200 cargo test --quiet --lib --tests -- --test-threads=1 --format=pretty) >"$room/said" 2>&1
    ended=$?
    sed -n 's/^test \(.*\) \.\.\. ok$/vhost-user-backend::\1: ok/p; s/^test \(.*\) \.\.\. FAILED$/vhost-user-backend::\1: FAILED/p' "$room/said"
    [ "$ended" != 0 ] || return
    cat "$room/said"
    grep -q '^test .* FAILED$' "$room/said" || told "vhost-user-backend (status $ended)" 1
}

# The crate itself and this package in one process: where the one hangs and the other does not, and that calls of both come to the same.
plays_beside_the_crate() {
    if ! find_the_crate; then
        echo "gains, both: not played, since COVRETIN_CRATES names no folder that has vhost, or what it depends on"
        return
    fi
    if cargo clippy --version >/dev/null 2>&1; then
        (cd fuzz && run_beside clippy --all-targets -- -D warnings) >"$room/said" 2>&1
        ended=$?
        [ "$ended" = 0 ] || cat "$room/said"
        told beside_the_crate_clippy "$ended"
    fi
    (cd fuzz && within 600 run_beside test --test gains -- --test-threads=1 --format=pretty) >"$room/said" 2>&1
    ended=$?
    sed -n 's/^test \(.*\) \.\.\. ok$/gains::\1: ok/p; s/^test \(.*\) \.\.\. FAILED$/gains::\1: FAILED/p' "$room/said"
    [ "$ended" = 0 ] || cat "$room/said"
    (cd fuzz && within 1200 run_beside run --bin both 1000) >"$room/said" 2>&1
    ended=$?
    [ "$ended" = 0 ] || cat "$room/said"
    told both_come_to_the_same "$ended"
    (cd fuzz && within 1200 run_beside run --bin raw 2000) >"$room/said" 2>&1
    ended=$?
    [ "$ended" = 0 ] || cat "$room/said"
    told raw_requests_come_to_the_same "$ended"
}

# Cargo, over the folder of crates.
run_over_crates() {
    command=$1
    shift
    cargo "$command" --config "source.crates-io.replace-with='here'" --config "source.here.directory='$(cd "$COVRETIN_CRATES" && pwd)'" --offline --quiet "$@"
}

# The package under the name virtio-queue: what its calls do, what broken rings come to, each of the crate's names, and the crate beside it.
reads_rings_for_others() {
    if ! folder_of vm-memory >"$room/said" || ! folder_of rangemap >"$room/said"; then
        echo "virtio-queue: not played, since COVRETIN_CRATES names no folder that has vm-memory 0.18, with what it depends on"
        return
    fi
    if cargo clippy --version >/dev/null 2>&1; then
        (cd virtio-queue && run_over_crates clippy --all-targets --features test-utils -- -D warnings) >"$room/said" 2>&1
        ended=$?
        [ "$ended" = 0 ] || cat "$room/said"
        told virtio_queue_clippy "$ended"
    fi
    (cd virtio-queue && RUSTDOCFLAGS="-D warnings" run_over_crates doc --no-deps --all-features) >"$room/said" 2>&1
    ended=$?
    [ "$ended" = 0 ] || cat "$room/said"
    told virtio_queue_documented "$ended"
    (cd virtio-queue && within 600 run_over_crates test --features test-utils --tests -- --format=pretty) >"$room/said" 2>&1
    ended=$?
    sed -n 's/^test \(.*\) \.\.\. ok$/virtio-queue::\1: ok/p; s/^test \(.*\) \.\.\. FAILED$/virtio-queue::\1: FAILED/p' "$room/said"
    [ "$ended" = 0 ] || { cat "$room/said"; grep -q '^test .* FAILED$' "$room/said" || told "virtio-queue (status $ended)" 1; }
    plays_drivers_of_both
    COVRETIN_VIRTIO_QUEUE=$(folder_of virtio-queue) "$top/tests/rust_names.py" virtio-queue >"$room/said" 2>&1
    ended=$?
    [ "$ended" = 0 ] || cat "$room/said"
    told names_of_virtio_queue "$ended"
}

# The crate virtio-queue and this package in one program, with the same drivers.
plays_drivers_of_both() {
    if cargo clippy --version >/dev/null 2>&1; then
        (cd virtio-queue/beside && run_over_crates clippy --release --all-targets -- -D warnings) >"$room/said" 2>&1
        ended=$?
        [ "$ended" = 0 ] || cat "$room/said"
        told beside_virtio_queue_clippy "$ended"
    fi
    (cd virtio-queue/beside && within 600 run_over_crates test --release --tests -- --format=pretty) >"$room/said" 2>&1
    ended=$?
    sed -n 's/^test \(.*\) \.\.\. ok$/beside_virtio_queue::\1: ok/p; s/^test \(.*\) \.\.\. FAILED$/beside_virtio_queue::\1: FAILED/p' "$room/said"
    [ "$ended" = 0 ] || { cat "$room/said"; grep -q '^test .* FAILED$' "$room/said" || told "beside_virtio_queue (status $ended)" 1; }
}

# The example that stands on it: built, linted, and a machine's source of entropy, where there is a machine.
serves_entropy() {
    if ! folder_of vhost-user-backend >"$room/said"; then
        echo "rng: not built, since COVRETIN_CRATES names no folder that has vhost-user-backend"
        return
    fi
    config="source.crates-io.replace-with='here'" source="source.here.directory='$(cd "$COVRETIN_CRATES" && pwd)'"
    (cd examples/rng && { ! cargo clippy --version || cargo clippy --config "$config" --config "$source" --offline --quiet -- -D warnings; } &&
        cargo build --config "$config" --config "$source" --offline --quiet) >"$room/said" 2>&1
    ended=$?
    [ "$ended" = 0 ] || cat "$room/said"
    told rng_builds "$ended"
    [ "$ended" = 0 ] || return
    # (a guest's memory whose file is truncated ends each program over vm-memory)
    echo "HOS-30 CRASH" >"$room/checked.known"
    expected="--expect=$room/checked.known"
    finds_no_fault vhost_user_backend rng examples/rng/target/debug/rng %s
    can_boot || return
    mkdir "$room/entropy" && (cd "$room/entropy" &&
        within 600 python3 -B "$top/c/real/shared_files.py" entropy "$room/rust/examples/rng/target/debug/rng") >"$room/said" 2>&1
    ended=$?
    [ "$ended" = 0 ] || cat "$room/said" "$room/entropy/rng.daemon"
    told rng_serves_a_machine "$ended"
}

# The checker of backends: its own tests; and no MUST, crash or hang of the devices here, in C and in Rust.
checks_backends() {
    if cargo clippy --version >/dev/null 2>&1; then
        (cd check && run_cargo clippy --all-targets -- -D warnings)
        told check_clippy $?
    fi
    (cd check && run_cargo build && within 1200 cargo test --config ../debian.toml --offline --quiet -- --format=pretty) >"$room/said" 2>&1
    ended=$?
    sed -n 's/^test \(.*\) \.\.\. ok$/check::\1: ok/p; s/^test \(.*\) \.\.\. FAILED$/check::\1: FAILED/p' "$room/said"
    [ "$ended" = 0 ] || { cat "$room/said"; told check "$ended"; }
    truncate -s 64M "$room/checked.disk"
    finds_no_fault disk blk "$room/rust/target/debug/examples/disk" %s "$room/checked.disk" 1
    finds_no_fault entropy rng "$room/rust/target/debug/examples/entropy" %s
    finds_no_fault vsock vsock "$room/rust/target/debug/examples/vsock" %s
    command -v cc >/dev/null || return
    for device in rng blk net; do
        cc -std=gnu11 -O1 -pthread -DBLK_THREADS -I"$top/include" -o "$room/checked_$device" "$top/c/$device.c" "$room/build/libcovretin.a" || return
    done
    finds_no_fault c_rng rng "$room/checked_rng" %s
    finds_no_fault c_blk blk "$room/checked_blk" %s "$room/checked.disk" 1 packed
    finds_no_fault c_net net "$room/checked_net" %s
}

# A program, of the type of its device, in which the checker finds no fault.
finds_no_fault() {
    name=$1 type=$2
    shift 2
    within 1200 check/target/debug/covretin-check --as-root ${expected-} --type="$type" --image="$room/checked.disk" -- "$@" >"$room/said" 2>&1 &&
        grep -q '^no fault seen in [0-9]' "$room/said" && ! grep -q '^[^ ]* *TROUBLE' "$room/said"
    ended=$?
    [ "$ended" = 0 ] || grep -v '^[^ ]* *\(PASS\|SKIP\) ' "$room/said"
    told "check_$name" "$ended"
}

all() {
    (for package in . vhost virtio-queue virtio-queue/beside fuzz fuzz/kit examples/rng check; do (cd "$package" && cargo fmt --check) || exit 1; done)
    told formatted $?
    if cargo clippy --version >/dev/null 2>&1; then
        run_cargo clippy --all-targets -- -D warnings
        told clippy $?
        run_cargo clippy --all-targets --no-default-features -- -D warnings
        told clippy_without_features $?
        run_cargo clippy --features compat-0_17,test-utils -- -D warnings
        told clippy_of_the_older_signatures $?
        (cd fuzz/kit && run_cargo clippy -- -D warnings)
        told clippy_of_the_kit_that_is_attacked $?
    fi
    RUSTDOCFLAGS="-D warnings" run_cargo doc --no-deps
    told documented $?
    run_cargo build --all-targets
    told builds $?
    play_units
    for file in tests/*.rs; do
        play "$(basename "$file" .rs)"
    done
    play device_costs --ignored
    judges_the_scripts
    dissects_packets
    play_sanitized
    attacks_the_kit
    play_documentation
    ends_by_its_kind
    asks_the_daemon
    asks_the_storage_daemon
    serves_the_programs_in_c
    asks_the_disk
    asks_the_confined_disk
    asks_the_kit
    checks_backends
    boots_machines
    moves_machines
    measures
    ! command -v nm >/dev/null || hides_its_names
    chooses_the_library
    stands_for_the_crate
    patches_a_program
    plays_what_stands_on_it
    reads_rings_for_others
    serves_entropy
    plays_beside_the_crate
}

# (what ends it amid the tests, as what cannot be built, ends a shell of its own)
{ (all; exit 0); echo "$?" >"$room/ended"; } 2>&1 | tee "$room/lines"
ended=$(cat "$room/ended")
[ "$ended" = 0 ] || exit "$ended"
passed=$(grep -c ': ok$' "$room/lines")
failed=$(grep -c ': FAILED$' "$room/lines")
echo "$passed passed, $failed failed"
[ "$failed" = 0 ] && [ "$passed" != 0 ]
