# Completions of kcore for bash.
_kcore() {
    local word=${2#=} before=$3 command=
    [ "$COMP_CWORD" -le 1 ] || command=${COMP_WORDS[1]}
    # Bash takes an equals sign for a word of its own.
    [ "$before" != = ] || before=${COMP_WORDS[COMP_CWORD - 2]}
    COMPREPLY=()
    case $before in
        --config | --from | --to | --after)
            mapfile -t COMPREPLY < <(compgen -f -- "$word")
            compopt -o filenames 2> /dev/null
            return ;;
        --vm) mapfile -t COMPREPLY < <(compgen -W "$(seq 0 1023)" -- "$word"); return ;;
        --workers) mapfile -t COMPREPLY < <(compgen -W "$(seq 64)" -- "$word"); return ;;
    esac
    local words=
    case $command in
        '') words='replay live custody audit redact convert measure help --help --version' ;;
        replay) words='--config --from --to --workers --lines --dump --state --blank --explain --help' ;;
        live) words='--config --workers --explain --help' ;;
        custody) words='--config --from --vm --summary --svg --html --refused --accesses --unseen --digests --explain --help' ;;
        audit) words='--all --explain --help' ;;
        redact) words='--config --from --host --explain --help' ;;
        convert) words='--config --after --explain --help' ;;
        measure) words='--json --explain --help' ;;
        help) [ "$COMP_CWORD" -gt 2 ] || words='replay live custody audit redact convert measure help' ;;
    esac
    mapfile -t COMPREPLY < <(compgen -W "$words" -- "$word")
    # The file that a command reads; of measure, after an equals sign.
    case $command in
        replay | live | custody | audit | redact | convert | measure)
            [ "${word:0:1}" = - ] && return
            [ "$word" ] && COMPREPLY=()
            mapfile -t -O ${#COMPREPLY[@]} COMPREPLY < <(compgen -f -- "$word")
            compopt -o filenames 2> /dev/null ;;
    esac
}
complete -F _kcore kcore
