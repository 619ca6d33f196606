# What bash completes of the words of `phase`.

# The names of the sinks of the graphs among these words.
_phase_sinks() {
    local word
    for word in "$@"; do
        [ ! -f "$word" ] || sed -n 's/^[ ]*sink[ ]\{1,\}\([A-Za-z0-9_]\{1,\}\).*/\1/p' "$word"
    done
}

_phase() {
    local words
    case $COMP_CWORD,${COMP_WORDS[1]},$2,$3 in
        1,*) words='check draw eval help replay run stream --help --version' ;;
        2,help,*) words='check draw eval replay run stream' ;;
        *,--sink) words=$(_phase_sinks "${COMP_WORDS[@]:2}") ;;
        *,--to)
            compopt -o nospace
            words=$(_phase_sinks "${COMP_WORDS[@]:2}" | sed 's/$/=/')
            ;;
        *,replay,-*) words='--help --strict' ;;
        *,check,-*) words='--beside --explain --help' ;;
        *,draw,-*) words='--explain --help' ;;
        *,eval,-*) words='--beside --columns --explain --help --sink --workers' ;;
        *,stream,-*) words='--beside --columns --explain --help --sink --to' ;;
        *,run,-*) words='--beside --counts --explain --help --sink --workers' ;;
        *) return ;;
    esac
    COMPREPLY=($(compgen -W "$words" -- "$2"))
}
complete -o default -F _phase phase
