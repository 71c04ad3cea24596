#!/bin/sh
# SPDX-License-Identifier: Apache-2.0
# Tests what goes out, without the kit. './test release --help' says more.
top=$(cd "$(dirname "$0")/.." && pwd) || exit 3
program="test release"

usage() {
    cat <<END
usage: ./test release            makes the tarball, and does with it what a user does on a machine without the Rattle kit: make check and
                                 make install, the licence of each file, changes of the assembly that have to be found, a backtrace through the proved code, a
                                 program by pkg-config, devices that systemd starts by their units, the first steps of README and of the
                                 guides for C and Rust, the package for Rust, ./vhost-run and ./vhost-daemon, the tap's pages in a browser,
                                 Debian's packages and their tests; the library and the programs for aarch64, by emulation; and the C around the proved
                                 core, checked by a model checker
       ./test release NAME..     these rows alone, by the names that it prints; and two that install a bare Debian from the network, as
                                 root: bare_system makes the steps of .github/workflows/check.yml there, and bare_installed installs the
                                 programs in Debian 13, where two commands boot a guest
       ./test release --help     shows this
       ./test release --version  prints the version

Prints a line for each row, and last 'N passed, M failed'. A row whose programs are not there is left out, which a line says. It takes some
ten minutes of one processor.

Needed: make, cc, pkg-config, python3, git, xz; for Rust what ./test rust needs; for Debian's packages dpkg-dev, debhelper, lintian, cargo and the crates
of ./test rust; for aarch64 gcc-aarch64-linux-gnu, libc6-dev-arm64-cross and qemu-user, and for its programs in Rust the packages rustc and
libstd-rust-dev:arm64; for the units root, systemd, and cgroup2 and overlayfs of the kernel; for the tap's pages chromium; for the licences
reuse; for the model checker cbmc, which Debian 13 has; for a bare Debian debootstrap, and for bare_installed linux-image-amd64, busybox-static, cpio and e2fsprogs. No other row uses the network.

Status: 0 where all passed; 1 where a row failed; 2 after wrong arguments; 3 where something is missing.
END
}

. "$top/scripts/build/options.sh"

rows='tarball licences tampers sums rust_sums unwinding protected installs_for_programs units_serve checks first_answer pages rust_builds rust_packaged drawn_arrows drawn_quickly debian_packages aarch64_library aarch64_unwinding aarch64_tests aarch64_rust c_checked'
for name in "$@"; do
    case " $rows bare_system bare_installed " in *" $name "*) ;; *) refuse ;; esac
done
[ $# != 0 ] || set -- $rows
need make cc headers pkg-config python3 git xz tar sha256sum

room=$(mktemp -d) || exit 3
trap 'rm -rf "$room"' EXIT
trap 'exit 3' HUP INT TERM

# A PATH with the system's programs and cargo's, and without the kit.
mkdir "$room/bin" || exit 3
for tool in cargo rustc rustdoc rustfmt; do
    found=$(command -v "$tool") && ln -s "$found" "$room/bin/$tool"
done
PATH=$room/bin:/usr/sbin:/usr/bin:/sbin:/bin
export PATH
! command -v rt >/dev/null || { tell "the kit is in a folder of the system"; exit 3; }

has() {
    for tool in "$@"; do
        command -v "$tool" >/dev/null || { lacking=$tool; return 1; }
    done
}

has_packages() {
    for package in "$@"; do
        dpkg-query -W -f '${Status}' "$package" 2>/dev/null | grep -q ' installed$' || { lacking=$package; return 1; }
    done
}

. "$top/scripts/build/crates.sh"

has_crates() {
    lacking=$(missing_packages)
    lacking=${lacking# }
    [ -z "$lacking" ]
}

version=$(cat "$top/VERSION")
tree=$room/covretin-$version

# Made twice, at places of other names, it is the same; and it is all that the rows below begin with.
tarball() {
    make -s -C "$top" dist BUILD="$room/none" && mv "$top/covretin-$version.tar.xz" "$top/SHA256SUMS" "$room/" || return 1
    (cd "$room" && sha256sum --quiet -c SHA256SUMS && tar -xf "covretin-$version.tar.xz") || return 1
    cp -a "$tree" "$room/again" && (cd "$room/again" && make -s dist && cmp "covretin-$version.tar.xz" "$room/covretin-$version.tar.xz")
}

# Each file has a licence, in the words of SPDX, and so it stands in the list of all.
licences() {
    cp -a "$tree" "$room/licensed" && cd "$room/licensed" && reuse lint >"$room/said" 2>&1 || { tail -n 20 "$room/said"; return 1; }
    make -s sbom || return 1
    listed=$(grep -c '^FileName: ' "covretin-$version.spdx")
    [ "$listed" -gt 1000 ] && [ "$(grep -c '^LicenseInfoInFile: Apache-2.0$' "covretin-$version.spdx")" = "$listed" ]
}

# What is changed in the assembly of proved code is found where it is compared with what was proved.
tampers() {
    "$tree/tests/tampers.py"
}

# Whether what the words behind do to the package fails, and names the library for queues, into which an instruction was put.
refuses_other_code() {
    cp -a "$tree" "$room/$1" && sed -i '0,/\tret/s//\tnop\n&/' "$room/$1/generated/$(uname -m)-linux/covretin_queue.s" || return 1
    folder=$room/$1
    shift
    ! (cd "$folder" && "$@") >"$room/said" 2>&1 || { echo "$*: built code that was not proved"; return 1; }
    grep 'covretin_queue.s: not the file that was proved' "$room/said" >/dev/null || { cat "$room/said"; return 1; }
}

# Code is built where it is the file that was proved, of the sources as they are.
sums() {
    refuses_other_code other_for_make make -s && (cd "$tree" && scripts/build/generate.py --check)
}

rust_sums() {
    refuses_other_code other_for_cargo sh -c "cd rust && CARGO_HOME='$room/cargo' cargo --config debian.toml build --offline --quiet"
}

builds() {
    [ -e "$tree/build/libcovretin.a" ] || make -s -C "$tree"
}

# The way from an allocation through the proved code to main is found.
unwinds() {
    "$1" -O1 -I"$tree/include" -o "$room/unwinding" "$tree/c/tests/unwinding.c" "$2/libcovretin.a" -pthread -Wl,--wrap=malloc,--wrap=realloc
}

unwinding() {
    builds && unwinds cc "$tree/build" && "$room/unwinding"
}

# Where a branch lands is checked by processors that can, in a program that has the library and is protected itself.
protected() {
    builds && ld -shared -z cet-report=error -o "$room/protected.so" --whole-archive "$tree/build/libcovretin.a"
}

# Without the checkout's tools, whoever may read; and a program that pkg-config tells how to be built.
installs_for_programs() {
    builds && make -s -C "$tree" install DESTDIR="$room/system" PREFIX=/usr || return 1
    export PKG_CONFIG_PATH="$room/system/usr/lib/pkgconfig" PKG_CONFIG_SYSROOT_DIR="$room/system"
    cat >"$room/program.c" <<END
#include <covretin.h>
#include <stdio.h>
int main(void) {
    covretin_session session = {0};
    int ended = covretin_open(&session, 1) != COVRETIN_OK || covretin_ask_get_features(&session) != COVRETIN_OK;
    covretin_close(&session);
    return puts(covretin_version()) < 0 || ended;
}
END
    cc -o "$room/program" "$room/program.c" $(pkg-config --cflags --libs covretin) || return 1
    [ "$(LD_LIBRARY_PATH="$room/system/usr/lib" "$room/program")" = "$version" ] || return 1
    man -l "$room"/system/usr/share/man/man7/covretin.7 >"$room/page" 2>/dev/null || ! has man || return 1
    cd "$room/system/usr/share/man" || return 1 # (a page may name another from there)
    for page in man*/*; do ! has groff || [ -z "$(groff -man -ww -z "$page" 2>&1)" ] || return 1; done
}

# systemd starts devices by the units that are installed, and shuts them in.
units_serve() {
    [ -e "$room/system" ] || { builds && make -s -C "$tree" install DESTDIR="$room/system" PREFIX=/usr; } || return 1
    "$tree/tests/systemd.sh" "$room/system" "$(command -v python3)" -B /tree/tests/programs/try_units.py /tree >"$room/said" 2>&1 || { tail -n 20 "$room/said"; return 1; }
}

checks() {
    make -s -C "$tree" check >"$room/said" 2>&1 || { grep -v ': ok$' "$room/said"; return 1; }
    tail -n 1 "$room/said"
}

# By the proved program, within seconds of the processor.
first_answer() {
    cp -a "$tree" "$room/fresh" || return 1
    printf 'get_features\nset_owner\nget_vring_base 9\n' >"$room/lines"
    began=$(awk '{ print $14 + $15 + $16 + $17 }' /proc/$$/stat)
    "$room/fresh/vhost-run" <"$room/lines" >"$room/said" || return 1
    used=$(($(awk '{ print $14 + $15 + $16 + $17 }' /proc/$$/stat) - began))
    diff - "$room/said" <<END || return 1
010000000100000000000000 0100000005000000080000000300004000000000 ok 0x40000003
030000000100000000000000 - ok
- - err InvalidParam
END
    [ "$used" -lt $((5 * $(getconf CLK_TCK))) ] || { echo "it took $used ticks of the processor"; return 1; }
    "$room/fresh/vhost-daemon" --print-capabilities | grep -q '"type"'
}

# The first steps that they show, as a new user follows them.
pages() {
    "$top/tests/programs/try_pages.py" "$tree" README.md docs/guide/c.md docs/guide/device-c.md docs/guide/device-rust.md docs/guide/rust.md
}

cargo_in() {
    folder=$1
    shift
    (cd "$folder" && CARGO_HOME="$room/cargo" cargo "$@" --config debian.toml --offline --quiet)
}

rust_builds() {
    cargo_in "$tree/rust" build --all-targets && cargo_in "$tree/rust" test --test calls --test served_calls
}

# What cargo packs is a crate that another uses.
rust_packaged() {
    CARGO_HOME="$room/cargo" make -s -C "$tree" crate CARGO='cargo --config debian.toml --offline --quiet' && mkdir -p "$room/user/src" || return 1
    tar -C "$room" -xf "$tree/rust/target/package/covretin-$version.crate" || return 1
    for it in LICENSE NOTICE; do cmp "$tree/$it" "$room/covretin-$version/$it" || return 1; done
    cp "$tree/rust/debian.toml" "$room/user/" || return 1
    (cd "$room/user" && printf '[package]\nname = "user"\nversion = "0.1.0"\nedition = "2021"\n[dependencies]\ncovretin = { path = "../covretin-%s" }\n[profile.release]\nlto = "fat"\n' "$version" >Cargo.toml) || return 1
    cat >"$room/user/src/main.rs" <<END
use covretin::vhost_user::Listener;
fn main() {
    let path = std::env::args().nth(1).unwrap();
    println!("{}", Listener::new(path, true).is_ok());
}
END
    cargo_in "$room/user" build && cargo_in "$room/user" build --release && [ "$("$room/user/target/release/user" "$room/user.socket")" = true ]
}

# What a browser draws of the page of a recorded session.
draws() {
    cargo_in "$tree/rust" build --bin covretin-tap &&
        "$top/tests/programs/try_drawn.py" "$1" "$tree/rust/target/debug/covretin-tap" "$tree/rust/tests/recordings/$2.jsonl"
}

# An arrow for each message, to the side that gets it.
drawn_arrows() {
    draws arrows mig_native-src
}

# Of 10,000 messages, within seconds of the processor; and the filter in a part of what it takes where all rows are drawn.
drawn_quickly() {
    draws quick blk_mq
}

# They build without the network, are installed to a folder, and lintian finds no error.
debian_packages() {
    cp -a "$tree" "$room/debian-source" && cd "$room/debian-source" || return 1
    DEB_BUILD_OPTIONS=nocheck dpkg-buildpackage -us -uc -b >"$room/said" 2>&1 || { tail -n 20 "$room/said"; return 1; }
    cd "$room" || return 1
    lintian --fail-on error --no-tag-display-limit ./*.deb >"$room/tags" 2>&1 || { cat "$room/tags"; return 1; }
    for package in ./*.deb; do dpkg -x "$package" "$room/packages" || return 1; done
    [ -f "$room/packages/usr/lib/$(dpkg-architecture -qDEB_HOST_MULTIARCH)/wireshark/plugins/vhost_user.lua" ] || return 1
    for name in covretin covretin-ask covretin-check covretin-tap vhost-daemon vhost-run; do
        "$room/packages/usr/bin/$name" --version >/dev/null 2>&1 || echo get_features | "$room/packages/usr/bin/$name" >/dev/null || return 1
    done
    debian_tests
}

# The tests that Debian runs of its packages, over those that were unpacked.
debian_tests() {
    export PATH="$room/packages/usr/bin:$PATH" EXAMPLES="$room/packages/usr/share/doc/libcovretin-dev/examples" PKG_CONFIG_SYSROOT_DIR="$room/packages"
    PKG_CONFIG_PATH=$(echo "$room"/packages/usr/lib/*/pkgconfig)
    LD_LIBRARY_PATH=$(dirname "$PKG_CONFIG_PATH")
    export PKG_CONFIG_PATH LD_LIBRARY_PATH
    for name in library programs; do
        "$room/debian-source/debian/tests/$name" >"$room/said" 2>&1 || { cat "$room/said"; return 1; }
    done
}

aarch64_library() {
    make -s -C "$tree" CC=aarch64-linux-gnu-gcc AR=aarch64-linux-gnu-ar BUILD="$room/aarch64" || return 1
    file_of=$(aarch64-linux-gnu-readelf -h "$room/aarch64/libcovretin.so" | sed -n 's/.*Machine: *//p')
    [ "$file_of" = AArch64 ] || return 1
    ! describes_frames aarch64 ||
        aarch64-linux-gnu-ld -shared -z force-bti --fatal-warnings -o "$room/protected.so" --whole-archive "$room/aarch64/libcovretin.a"
}

aarch64_unwinding() {
    [ -e "$room/aarch64/libcovretin.a" ] || aarch64_library || return 1
    unwinds aarch64-linux-gnu-gcc "$room/aarch64" && qemu-aarch64 -cpu max -L /usr/aarch64-linux-gnu "$room/unwinding"
}

# What an emulator of user programs cannot do is named, test by test, in tests/aarch64.sh.
aarch64_tests() {
    "$tree/tests/aarch64.sh" "$tree" "$room/aarch64-tests" >"$room/said" 2>&1 || { cat "$room/said"; return 1; }
    tail -n 1 "$room/said"
}

# The tap and the disk, compiled for it; they answer what they are.
aarch64_rust() {
    (cd "$tree/rust" && CARGO_TARGET_AARCH64_UNKNOWN_LINUX_GNU_LINKER=aarch64-linux-gnu-gcc CARGO_HOME="$room/cargo" RUSTC=/usr/bin/rustc \
        /usr/bin/cargo --config debian.toml build --offline --quiet --target aarch64-unknown-linux-gnu --target-dir "$room/aarch64-rust" --bin covretin-tap \
        --example disk --example ask) || return 1
    qemu-aarch64 -L /usr/aarch64-linux-gnu "$room/aarch64-rust/aarch64-unknown-linux-gnu/debug/covretin-tap" --version | grep -q "$version"
}

# For all inputs within bounds, with faults that are planted and have to be found.
c_checked() {
    "$tree/scripts/trust/check_c.py" >"$room/said" 2>&1 || { cat "$room/said"; return 1; }
    tail -n 1 "$room/said"
}

# A bare Debian, into which what a public runner installs is installed, and its steps: with a namespace of its own for what is mounted.
bare_system() {
    debootstrap --variant=minbase bookworm "$room/bare" >"$room/said" 2>&1 && cp -a "$tree" "$room/bare/covretin" || { tail "$room/said"; return 1; }
    cp /etc/resolv.conf "$room/bare/etc/" || return 1
    for step in packages gcc clang rust aarch64; do
        unshare --mount sh -c "mount -t proc proc '$room/bare/proc' && mount --rbind /dev '$room/bare/dev' &&
            chroot '$room/bare' /covretin/.ci/public $step" >"$room/said" 2>&1 || { tail -n 30 "$room/said"; echo "$step failed"; return 1; }
    done
}

# The package is installed in a bare Debian 13, where two commands boot a guest from a disk. The kernel of the guest is this machine's.
bare_installed() {
    ls "$room"/covretin-tools_*.deb >"$room/said" 2>&1 || debian_packages || return 1
    as --32 -o "$room/boot.o" "$tree/c/real/boot.S" && ld -m elf_i386 -Ttext 0x7c00 -e start --oformat binary -o "$room/boot" "$room/boot.o" || return 1
    debootstrap --variant=minbase --include=qemu-system-x86,gcc,libc6-dev,pkg-config trixie "$room/trixie" >"$room/said" 2>&1 || { tail "$room/said"; return 1; }
    cp "$room"/libcovretin0_*.deb "$room"/libcovretin-dev_*.deb "$room"/covretin-tools_*.deb "$room/trixie/" && cp -r "$tree/debian/tests" "$room/trixie/" && cp /etc/resolv.conf "$room/trixie/etc/" || return 1
    unshare --mount sh -c "mount -t proc proc '$room/trixie/proc' && mount --rbind /dev '$room/trixie/dev' &&
        chroot '$room/trixie' sh -c 'apt-get update -q && apt-get install -q -y /covretin-tools_*.deb /libcovretin0_*.deb /libcovretin-dev_*.deb' &&
        chroot '$room/trixie' /tests/library && chroot '$room/trixie' /tests/programs &&
        python3 -B '$tree/c/real/installed.py' '$room/trixie' '$room/boot'" >"$room/said" 2>&1 || { tail -n 30 "$room/said"; return 1; }
}

# Whether the assembly of a machine was made with frames, by which the way back through it is found.
describes_frames() {
    lacking='frames in generated/, which scripts/build/generate.py writes'
    grep -q '\.cfi_startproc' "$top/generated/$1-linux/covretin.s" && grep -q '\.cfi_startproc' "$top/generated/$1-linux/covretin_queue.s"
}

# Whether tests/systemd.sh has what it takes of the kernel.
boots_systemd() {
    grep -q '	overlay$' /proc/filesystems && unshare --mount --pid --cgroup --ipc --uts --net true 2>/dev/null &&
        [ -w "$(awk '$3 == "cgroup2" { print $2; exit }' /proc/mounts)/cgroup.procs" ]
}

# Whether the programs of a row are there.
can() {
    case $1 in
    tampers) [ "$(uname -m)" = x86_64 ] || { lacking='processor x86-64'; return 1; } ;;
    pages | rust_sums | rust_builds | rust_packaged) has cargo rustc && has_crates ;;
    drawn_arrows | drawn_quickly) has chromium cargo rustc && has_crates ;;
    units_serve) [ "$(id -u)" = 0 ] || { lacking=root; return 1; }
        has unshare setpriv systemd-analyze && { boots_systemd || { lacking='overlayfs, namespaces or a cgroup2 that can be written'; return 1; }; } ;;
    debian_packages) has dpkg-buildpackage dh lintian && has_packages cargo debhelper && has_crates ;;
    unwinding) describes_frames "$(uname -m)" ;;
    protected) [ "$(uname -m)" = x86_64 ] && describes_frames x86_64 ;;
    bare_*) has debootstrap unshare && { [ "$(id -u)" = 0 ] || { lacking=root; return 1; }; } &&
        { [ "$1" = bare_system ] || { can debian_packages && has cpio mke2fs && has_packages linux-image-amd64 busybox-static; }; } ;;
    c_checked) has "${CBMC:-cbmc}" ;;
    licences) has reuse ;;
    aarch64_unwinding) has aarch64-linux-gnu-gcc qemu-aarch64 && describes_frames aarch64 ;;
    aarch64_library | aarch64_tests) has aarch64-linux-gnu-gcc qemu-aarch64 ;;
    aarch64_rust) has aarch64-linux-gnu-gcc qemu-aarch64 && has_packages rustc cargo libstd-rust-dev:arm64 && has_crates ;;
    esac
}

passed=0
failed=0
[ "$1" = tarball ] || tarball >/dev/null || { tell "the tarball could not be made"; exit 3; }
for row in "$@"; do
    lacking=
    if ! can "$row"; then
        echo "$row: left out: no $lacking"
    elif said=$( ("$row") 2>&1); then
        echo "$row: ok${said:+ ($(echo "$said" | tail -n 1))}"
        passed=$((passed + 1))
    else
        echo "$said"
        echo "$row: FAILED"
        failed=$((failed + 1))
    fi
done
echo "$passed passed, $failed failed"
[ "$failed" = 0 ] && [ "$passed" != 0 ]
