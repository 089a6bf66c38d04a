# What bash completes of csi-replay: the subcommands, and files where the words are such.
_csi_replay() {
    local word="${COMP_WORDS[COMP_CWORD]}" subcommands="answer show run frames draw controller node orchestrator record recover recover-controller"
    COMPREPLY=()
    case "$COMP_CWORD ${COMP_WORDS[1]} $word" in
        "1 "*) mapfile -t COMPREPLY < <(compgen -W "$subcommands --help --version" -- "$word") ;;
        "2 "*" -"*) mapfile -t COMPREPLY < <(compgen -W "--help" -- "$word") ;;
        "2 "* | "3 controller "* | "3 orchestrator "* | "3 recover"* | [5-9]" recover"* | [1-9][0-9]" recover"*) mapfile -t COMPREPLY < <(compgen -f -- "$word") ;;
    esac
}
complete -o filenames -F _csi_replay csi-replay
