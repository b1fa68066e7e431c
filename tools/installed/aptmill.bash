# Completion of aptmill for bash, put in place by tools/install: commands and tools, and behind them files.
_aptmill() {
    local word=${COMP_WORDS[COMP_CWORD]} command=${COMP_WORDS[1]}
    local IFS=$'\n'
    compopt +o filenames 2>/dev/null
    case $COMP_CWORD/$command/$word in
    1/*) COMPREPLY=($(compgen -W $'@COMMANDS@' -- "$word")) ;;
    */-*) COMPREPLY=($(compgen -W $'--help' -- "$word")) ;;
    2/demo/*) COMPREPLY=() ;;
    2/explain/*) COMPREPLY=($(compgen -W $'@CASES@' -- "$word")) ;;
    *)
        compopt -o filenames 2>/dev/null
        COMPREPLY=($(compgen -f -- "$word"))
        ;;
    esac
}
complete -F _aptmill aptmill
