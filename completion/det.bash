# Completes the words of det and explain in bash: put `. PATH/completion/det.bash` into ~/.bashrc
# shellcheck disable=SC2207

_det_words() {
    local word=$1 before=$2 command=$3
    case "$before" in
        --engine) COMPREPLY=($(compgen -W "demand rounds pool seats" -- "$word")); return ;;
        --limit | --workers | --nodes | --link | --bytes) COMPREPLY=(); return ;;
        --source) COMPREPLY=($(compgen -f -- "$word")); return ;;
    esac
    if [ "${word#-}" = "$word" ]; then
        COMPREPLY=($(compgen -f -- "$word"))
        return
    fi
    case "$command" in
        "det run") COMPREPLY=($(compgen -W "--engine --workers --nodes --link --limit --digest" -- "$word")) ;;
        "det walk") COMPREPLY=($(compgen -W "--limit" -- "$word")) ;;
        "det bench") COMPREPLY=($(compgen -W "--engine --workers --nodes --link" -- "$word")) ;;
        "explain at") COMPREPLY=($(compgen -W "--limit --json --source --bytes" -- "$word")) ;;
        "explain trace" | "explain why") COMPREPLY=($(compgen -W "--limit --json --source" -- "$word")) ;;
    esac
}

_det() {
    local word=${COMP_WORDS[COMP_CWORD]} program=${COMP_WORDS[0]##*/} commands
    # A release calls explain det-explain.
    program=${program#det-}
    case "$program" in
        explain) commands="at trace why --help --version" ;;
        *) commands="run walk asm bench" ;;
    esac
    if [ "$COMP_CWORD" = 1 ]; then
        COMPREPLY=($(compgen -W "$commands" -- "$word"))
    else
        _det_words "$word" "${COMP_WORDS[COMP_CWORD - 1]}" "$program ${COMP_WORDS[1]}"
    fi
}

complete -o filenames -F _det det explain det-explain
