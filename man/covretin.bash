# SPDX-License-Identifier: Apache-2.0
# What bash completes behind covretin: its commands, the options that the --help of a command shows, and files.
_covretin() {
    local word=${COMP_WORDS[COMP_CWORD]} found
    if [ "$COMP_CWORD" = 1 ]; then
        found=$("${COMP_WORDS[0]}" --help 2>/dev/null | sed -n 's/^  \([a-z][a-z]*\) .*/\1/p')
    elif [ "${COMP_WORDS[1]}" = serve ] && [ "$COMP_CWORD" = 2 ]; then
        found=example
    else
        case $word in -*) found=$("${COMP_WORDS[0]}" "${COMP_WORDS[1]}" --help 2>/dev/null | grep -o -e '--[a-z][a-z-]*=*' | sort -u) ;; esac
    fi
    COMPREPLY=($(compgen -W "$found" -- "$word"))
    [ "${COMPREPLY[*]}" != "${COMPREPLY[*]%=}" ] && compopt -o nospace 2>/dev/null
    return 0
}
complete -o default -F _covretin covretin
