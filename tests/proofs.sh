#!/bin/sh
# SPDX-License-Identifier: Apache-2.0
# The gate: every proof, mutant in must-fail/, test and program, and refused allocations. './test proofs --help' says more.
top=$(cd "$(dirname "$0")/.." && pwd) || exit 2
program="test proofs"

usage() {
    cat <<END
usage: ./test proofs            proves everything, tries the mutants in must-fail/, runs the tests and the programs, and then the proved vhost-run
                                with each allocation refused in turn
       ./test proofs --version  shows the version
       ./test proofs --help     shows this

It takes about 100 minutes on four processors where nothing is kept, and some 3 GB of memory for each; what a run on this machine passed
is kept, and later runs prove what has changed. Standard error tells now and then how far it is. Its last line is 'N passed, M failed'.
./test quick plays the same scripts, tests and programs without proof, in minutes; ./test mutants tries the other mutants.

Status: 0 where all passed; 1 where some did not; 2 after wrong arguments; 3 where the command rt is missing.
END
}

. "$top/scripts/build/options.sh"

[ $# = 0 ] || refuse
need_rt
# Each crate in one process, as many crates side by side as there are processors: the same verdict for less work.
RT_JOBS="${RT_JOBS:-$(nproc)}"
export RT_JOBS
cd "$top" && exec python3 tests/proofs.py rt ci
