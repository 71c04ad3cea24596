# SPDX-License-Identifier: Apache-2.0
# How the tests in shell wait for a program that listens.

# Whether a process of this script is there and has not ended.
is_running() {
    grep -q '^State:[[:space:]]*[^ZX]' "/proc/$1/status" 2>/dev/null
}

# Whether a process has a socket that listens. Its path is there a moment before that, or may be left over from another process, and whoever
# connects meanwhile is refused. Where the process lets nobody look, it counts as one that has.
has_listening() {
    [ -r "/proc/$1/fd" ] || return 0
    for it in "/proc/$1/fd"/*; do
        number=$(readlink "$it" | sed -n 's/^socket:\[\([0-9]*\)\]$/\1/p')
        [ -z "$number" ] || ! grep -q " 00010000 [0-9]* [0-9]* *$number " "/proc/$1/net/unix" || return 0
    done
    return 1
}

# wait_for PATH PROCESS: waits until a process in the background listens at a path, ten minutes, since it may have to be compiled first.
wait_for() {
    for _ in $(seq 6000); do
        is_running "$2" || break
        [ ! -S "$1" ] || ! has_listening "$2" || return 0
        sleep 0.1
    done
    echo "nobody listens at $1"
}
