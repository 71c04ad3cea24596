#!/bin/sh
# SPDX-License-Identifier: Apache-2.0
# Plays every script, unit test and program without proof. './test quick --help' says more.
top=$(cd "$(dirname "$0")/.." && pwd) || exit 3
program="test quick"
jobs=$(getconf _NPROCESSORS_ONLN 2>/dev/null || echo 1)

usage() {
    cat <<END
usage: ./test quick              plays every script, unit test and program
       ./test quick NAME..       plays these alone: a script, a file of unit tests, or a crate
       ./test quick --jobs N ..  with so many processes at a time, and not as many as there are processors
       ./test quick --version    shows the version
       ./test quick --help       shows this

A NAME is the end of a path, as 'asking_memory' or 'sockets/connecting', or a crate, as 'vhost_run'; 'scripts' is all scripts. The first run
compiles what it plays, without proof: about two minutes on four processors, and a gigabyte of memory each. What is compiled is kept in
crates/*/out, and compiled again where a source is newer; 'client' is compiled each time, of the names that the crates promise. Scripts are played over the proved library for C and the proved vhost-run, where
these are there and no source is newer, or over generated/. Playing takes less than two minutes, and longer beside other work: a program's
limit is of its processor time, and of the time in which it waits for nothing. A line says 'ok' or 'FAILED' and what was played, and the
last one 'N passed, M failed'.

Nothing is proved by it: ./test proofs does that.

Status: 0 where all passed; 1 where some did not; 2 after wrong arguments; 3 where the command rt of the
Rattle kit is missing, without which a script is played where generated/ was made of these sources, and nothing else.
END
}

. "$top/scripts/build/options.sh"

if [ "${1-}" = --jobs ]; then
    case ${2-} in
    '' | 0* | *[!0-9]*) refuse ;;
    esac
    jobs=$2
    shift 2
fi
for word in "$@"; do
    case $word in -*) refuse ;; esac
done
need python3
exec python3 "$top/tests/quick.py" "$jobs" "$@"
