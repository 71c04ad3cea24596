# SPDX-License-Identifier: Apache-2.0
# Builds and runs a program of this repository: what the commands that run one share. They set what scripts/build/options.sh asks for, and
# `package`, the crate's name, and `minutes`, what a proof takes; and may define `before_compiling` anew, which is given the arguments and
# ends where they want no program.
#
# The proved program lies in out/ of its crate once --prove has made it. Where it is not there, or a source is newer, it is assembled of
# generated/, if that was made of these sources, which takes cc alone. Else the program is compiled without proof. What is made is kept.
. "$top/scripts/build/options.sh"

proved=$top/crates/$package/out/$package
unproved=$top/crates/$package/out/unproved/$package

before_compiling() {
    :
}

build() {
    python3 "$top/scripts/build/crates.py" "$@"
}

# Whether a program is there, and none of these folders of its crates has a newer file.
is_current() {
    build current "$package" "$@"
}

# Compiles the program without proof, where none is kept or a source is newer.
compile() {
    is_current "$unproved" src && return
    before_compiling "$@"
    why="no proof was made yet"
    [ ! -x "$proved" ] || why="a source is newer than the proved program"
    need_rt
    tell "compiles the program without proof ($why), about a minute"
    build compile "$package" >/dev/null || exit 3
    tell "runs it without proof from now on; './$program --prove' makes the proved one"
}

# Proves the crates one after another, and builds the program. What is proved already is kept, and taken from there.
prove() {
    need_rt
    names=$(build below "$package") || exit 3
    total=$(echo "$names" | wc -l)
    tell "proving $((total)) crates, the program last: about $minutes minutes of one processor in all, here on $(getconf _NPROCESSORS_ONLN 2>/dev/null || echo some)"
    room=$(mktemp -d) || exit 3
    trap 'rm -rf "$room"' EXIT
    trap 'exit 3' HUP INT TERM
    : >"$room/began"
    count=0
    for name in $names; do
        count=$((count + 1))
        verb=lib
        [ "$name" != "$package" ] || verb=run
        printf '%s: %s of %s: %s ..' "$program" "$count" "$((total))" "$name" >&2
        began=$(date +%s)
        if ! (cd "$top/crates/$name" && rt "$verb" </dev/null >"$room/log" 2>&1); then
            echo " failed" >&2
            cat "$room/log" >&2
            tell "not proved, or not built"
            exit 3
        fi
        echo " proved, $(($(date +%s) - began)) seconds" >&2
    done
    # What was changed since is newer than the program.
    touch -r "$room/began" "$proved"
    tell "built; './$program' runs it"
}

# Runs the proved program, or, where there is none of these sources, the one without proof.
run() {
    # (of generated/ the proved program is made by a C compiler; what is missing is told before the shell's and that compiler's own errors)
    command -v python3 >/dev/null || need cc headers python3
    is_current "$proved" src specs proofs && exec "$proved" "$@"
    command -v rt >/dev/null || need cc headers
    assembled=$("$top/scripts/build/generate.py" --program "x86_64/$program") && exec "$assembled" "$@"
    compile "$@"
    exec "$unproved" "$@"
}
