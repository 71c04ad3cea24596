#!/bin/sh
# SPDX-License-Identifier: Apache-2.0
# Tests the library for programs in C. './test c --help' says more.
top=$(cd "$(dirname "$0")/.." && pwd) || exit 3
program="test c"

usage() {
    cat <<END
usage: ./test c            builds the library for programs in C, proved, and tests it: every script, sessions, connections and
                           services, hostile peers, failing system calls and allocations, both sides together, what ./vhost-fuzz
                           keeps, a frontend against two backends, covretin-ask, the example devices, and those that people run, the
                           headers, what ./bench measures, what each call costs in instructions (by valgrind, where it is there), and
                           what 'make install' puts in place, with each command's statuses. The C is compiled with the address and
                           undefined-behaviour sanitizers, and open descriptors are counted
       ./test c --groups   prints a line for each group of tests in the place of one for each, as 'make check' does
       ./test c NAME..     runs these groups alone, by the names in that; also behind --groups
       ./test c --help     shows this
       ./test c --version  prints the version

Prints a line for each test, and last 'N passed, M failed'. Two groups run at a time; with V=1 in the environment each shows how it is
compiled. The proved part is what ./test proofs left, where no source is newer; else generated/, where that was made of these sources; else
it is proved and built, which takes the command rt of the Rattle kit, and an hour of one processor.

Needed: make, python3, cc, c++, pkg-config, nm, readelf and objcopy.

Status: 0 where all passed; 1 where a test failed; 2 after wrong arguments; 3 where something is missing, or could not be built.
END
}

. "$top/scripts/build/options.sh"
. "$top/scripts/build/library.sh"
. "$top/tests/waiting.sh"
. "$top/tests/c_groups.sh"

# -- What the groups are linked with: it is compiled once --

strict="-std=gnu11 -Wall -Wextra -pedantic -Werror -I$top/include -I$top/c -I$top/c/tests -pthread"
under_sanitizers="-g -O1 -fsanitize=address,undefined -fno-sanitize-recover=all"
tools="$top/c/tests/testing.c $top/c/tests/peer.c $top/c/tests/by_hand.c $top/c/tests/alone.c $top/c/tests/screen.c"
kit="$top/c/covretin_device.c $top/c/covretin_device_calls.c $top/c/covretin_device_channel.c $top/c/covretin_device_inflight.c
    $top/c/covretin_device_memory.c $top/c/covretin_device_rings.c $top/c/covretin_log.c"

# Calls a compiler. What it cannot build ends all.
call() {
    [ "${V-}" != 1 ] || echo "$*"
    "$@" || exit 3
}

# parts NAME FLAG..: the library's C, the tests' tools and the proved queues as an archive, compiled with these flags.
parts() {
    to=$room/$1.a
    shift
    call cc $strict "$@" -c "$top"/c/covretin_*.c $tools
    call ar rcs "$to" ./*.o $queues
}

# linked NAME FLAGS TO SOURCE..: a program of these sources and what it uses of those parts. Sources are named as they are in c/tests.
linked() {
    of=$room/$1.a
    how=$2
    to=$room/$3
    shift 3
    (cd "$top/c/tests" && call cc $strict $how -o "$to" "$@" -Wl,--start-group "$of" "$archive" -Wl,--end-group) || exit 3
}

compile() {
    linked checked "$under_sanitizers" "$@"
}

# As users have it: what is judged by its processor time, or by its system calls.
compile_plain() {
    linked plain -O2 "$@"
}

# -- Lists of what is run, two lines at a time: a name, and a command --

# Runs the line of this name in a folder of its own, and shows what it said. Status 255, after which xargs begins no other, where something
# could not be built.
one() {
    name=$1
    command=$(sed -n "s/^$name //p" "$room/list")
    mkdir "$room/$name.room" || exit 255
    (cd "$room/$name.room" && $command; exit 0) </dev/null >"$room/$name.said" 2>&1 || { cat "$room/$name.said"; exit 255; }
    : >"$room/$name.done"
    "$show" "$name"
}

all() {
    cat >"$room/list"
    total=$(wc -l <"$room/list")
    rm -f "$room"/*.done
    sed 's/ .*//' "$room/list" | top=$top room=$room total=$total proved="$proved" archive=$archive queues=$queues uring=$uring \
        xargs -P 2 -n 1 "$0" --one "$1"
}

show_lines() {
    cat "$room/$1.said"
}

# A line for a group, with how far all are; before it what was left out, and of a group in which a test failed all that it said.
show_group() {
    passed=$(grep -c ': ok$' "$room/$1.said")
    failed=$(grep -c ': FAILED$' "$room/$1.said")
    said='left out'
    [ "$failed" = 0 ] && [ "${V-}" != 1 ] || said=
    grep -v ': ok$' "$room/$1.said" | grep "$said"
    set -- "$1" "$room"/*.done
    echo "$(($# - 1)) of $total: $1: $passed passed, $failed failed"
}

# The groups of these names, or all.
chosen() {
    groups >"$room/every"
    [ $# != 0 ] || set -- $(sed 's/ .*//' "$room/every")
    for name in "$@"; do
        grep "^$name " "$room/every" || { tell "there is no group $name"; usage >&2; exit 2; }
    done
}

show=show_lines
case ${1-} in
--groups)
    show=show_group
    shift
    ;;
--one) # by xargs, in all
    show=$2
    one "$3"
    exit 0
    ;;
-*) refuse ;;
esac
# (what a packager gives to make check is of his own install; those of the tests have folders of their own)
unset MAKEFLAGS PREFIX BINDIR LIBDIR INCLUDEDIR DATADIR UNITDIR DOCDIR MANDIR PLUGINDIR DESTDIR BUILD
need make python3 cc headers c++ ld objcopy nm readelf ar pkg-config sha256sum
room=$(mktemp -d) || exit 3
trap 'rm -rf "$room"' EXIT
trap 'exit 3' HUP INT TERM
find_library && find_queues || exit 3
uring=$(echo '#include <liburing.h>' | cc -E - >"$room/uring" 2>&1 && echo -luring)
chosen "$@" >"$room/chosen"
printf '%s\n' "checked parts checked $under_sanitizers" "plain parts plain -O2" | all show_lines && shared_programs | all show_lines &&
    all "$show" <"$room/chosen" || exit 3
passed=$(cat "$room"/*.said | grep -c ': ok$')
failed=$(cat "$room"/*.said | grep -c ': FAILED$')
echo "$passed passed, $failed failed"
[ "$failed" = 0 ] && [ "$passed" != 0 ]
