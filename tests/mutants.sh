#!/bin/sh
# SPDX-License-Identifier: Apache-2.0
# Tries the mutants, which the prover has to refuse. './test mutants --help' says more.
top=$(cd "$(dirname "$0")/.." && pwd) || exit 3
program="test mutants"
jobs=$(getconf _NPROCESSORS_ONLN 2>/dev/null || echo 1)

usage() {
    cat <<END
usage: ./test mutants              tries the mutants of mutants/: each is an edit of a crate that its prover has to refuse
       ./test mutants NAME..       tries these alone: a mutant, one of must-fail/ too, as 'front_lost' or 'vhost_link/front_lost', or a crate
       ./test mutants --jobs N ..  with so many checks at a time, and not as many as there are processors
       ./test mutants --version    shows the version
       ./test mutants --help       shows this

Those of one crate share a check of the functions that they change, over the libraries that ./test proofs left. One is refused only where the
prover says of its own function that a goal is not proved; whatever does not tell that fails. Each crate has a mutant 'harmless', which
means the same as the code: it is tried beside the others, and must not be refused. It takes about 30 minutes of one processor, and some
2 GB of memory a check. Standard error tells what each check took. A line says 'ok' or 'FAILED', and the last one 'N passed, M failed'.

Status: 0 where all passed; 1 where some did not; 2 after wrong arguments; 3 where the command rt is missing, or a library is.
END
}

. "$top/scripts/build/options.sh"

if [ "${1-}" = --jobs ]; then
    case ${2-} in
    '' | 0* | *[!0-9]*) refuse ;;
    esac
    jobs=$2
    shift 2
fi
for word in "$@"; do
    case $word in -*) refuse ;; esac
done
need_rt
page=$(rt doc) || exit 3
exec python3 "$top/tests/mutants.py" "$(dirname "$page")" "$jobs" "$@"
