#!/bin/sh
# SPDX-License-Identifier: Apache-2.0
# Tries the daemon as a service. './test daemon --help' says more.
top=$(cd "$(dirname "$0")/.." && pwd) || exit 3
program="test daemon"

usage() {
    cat <<END
usage: ./test daemon [WORD..]   plays each row, or those whose names have one of these words: clients one after another and at once,
                                other daemons at the path, signals, limits of the system, wrong arguments
       ./test daemon --help     shows this
       ./test daemon --version  prints the version

Prints a line for each row, and last 'N passed, M failed'. The daemon is compiled without proof where it is not there; some two minutes then.

Needed: python3 and Linux, and rt of the Rattle kit where the daemon has to be compiled.

Status: 0 where all passed; 1 where a row failed; 2 after wrong arguments; 3 where something is missing, or could not be built.
END
}

. "$top/scripts/build/options.sh"
need python3
case ${1-} in
-*) refuse ;;
esac
exec python3 "$top/tests/programs/try_daemon.py" "$@"
