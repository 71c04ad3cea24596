#!/bin/sh
# SPDX-License-Identifier: Apache-2.0
# scripts/build/needs.sh WORD..: whether the programs are there that a command needs, and the headers of the C library, by the word 'headers'. For what is missing it says on stderr which packages have it, in the words of this system's packager, or of four where it is none of
# theirs. CC and CXX name other compilers. Status 0 where all are there; 2 for a word that it does not know; 3 where one is missing. It calls
# no program but the compiler, since any may be missing.
lacking=
debian=
fedora=
alpine=
arch=

has() {
    command -v "$1" >/dev/null 2>&1
}

# lack WHAT DEBIAN FEDORA ALPINE ARCH: that is missing, and these packages have it.
lack() {
    lacking="$lacking${lacking:+, no }$1"
    debian="$debian $2"
    fedora="$fedora $3"
    alpine="$alpine $4"
    arch="$arch $5"
}

has_compiler() {
    has "${CC%% *}"
}

has_headers() {
    printf '#include <stdlib.h>\n' | $CC -E - >/dev/null 2>&1
}

CC=${CC:-cc}
CXX=${CXX:-c++}
for word in "$@"; do
    case $word in
    cc) has_compiler || lack "C compiler ${CC%% *} on PATH" 'gcc libc6-dev' gcc 'gcc musl-dev linux-headers' gcc ;;
    c++) has "${CXX%% *}" || lack "C++ compiler ${CXX%% *} on PATH" g++ gcc-c++ g++ gcc ;;
    # (without a compiler that is what is missing)
    headers) ! has_compiler || has_headers || lack 'header stdlib.h of the C library' libc6-dev glibc-devel 'musl-dev linux-headers' glibc ;;
    make | git | tar) has "$word" || lack "$word on PATH" "$word" "$word" "$word" "$word" ;;
    cargo) has cargo || lack 'cargo on PATH' cargo cargo cargo rust ;;
    python3) has python3 || lack 'python3 on PATH' python3 python3 python3 python ;;
    xz) has xz || lack 'xz on PATH' xz-utils xz xz xz ;;
    pkg-config) has pkg-config || lack 'pkg-config on PATH' pkg-config pkgconf-pkg-config pkgconf pkgconf ;;
    ar | ld | nm | objcopy | readelf) has "$word" || lack "$word on PATH" binutils binutils binutils binutils ;;
    sha256sum) has sha256sum || lack 'sha256sum on PATH' coreutils coreutils coreutils coreutils ;;
    *) echo "needs.sh: there is no word $word" >&2 && exit 2 ;;
    esac
done
[ -n "$lacking" ] || exit 0

# Each word once.
once() {
    found=
    for word in "$@"; do
        case " $found " in *" $word "*) ;; *) found="$found${found:+ }$word" ;; esac
    done
    echo "$found"
}

system=
if [ -r "${OS_RELEASE:-/etc/os-release}" ]; then
    while IFS='"' read -r line rest; do
        case $line in ID=* | ID_LIKE=*) system="$system ${line#*=} $rest" ;; esac
    done <"${OS_RELEASE:-/etc/os-release}"
fi
on_debian="apt-get install $(once $debian)"
on_fedora="dnf install $(once $fedora)"
on_alpine="apk add $(once $alpine)"
on_arch="pacman -S $(once $arch)"
case "$system " in
*' debian'[\ \"]* | *' ubuntu'[\ \"]*) how=$on_debian ;;
*' fedora'[\ \"]* | *' rhel'[\ \"]*) how=$on_fedora ;;
*' alpine'[\ \"]*) how=$on_alpine ;;
*' arch'[\ \"]*) how=$on_arch ;;
*) how="on Debian $on_debian; on Fedora $on_fedora; on Alpine $on_alpine; on Arch $on_arch" ;;
esac
echo "there is no $lacking: $how" >&2
exit 3
