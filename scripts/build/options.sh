# SPDX-License-Identifier: Apache-2.0
# What the commands at the top share: they set `top`, `program`, their name, and `usage`, which prints their help; and `refused` and
# `missing`, their statuses after wrong arguments and without `rt`, where these are not 2 and 3.

tell() {
    echo "$program: $*" >&2
}

# Ends after wrong arguments.
refuse() {
    usage >&2
    exit "${refused:-2}"
}

# Ends where there is no command of the Rattle kit, which brings its own compiler and library.
need_rt() {
    command -v rt >/dev/null && return
    tell "the command rt of the Rattle kit is not on PATH"
    exit "${missing:-3}"
}

# Ends where a program is not there, and says which package has it.
need() {
    said=$("$top/scripts/build/needs.sh" "$@" 2>&1) && return
    tell "$said"
    exit "${missing:-3}"
}

# Help and version are answered before anything is compiled.
case $#:${1-} in
1:-h | 1:--help)
    usage
    exit 0
    ;;
1:--version)
    echo "$program $(cat "$top/VERSION")"
    exit 0
    ;;
esac
