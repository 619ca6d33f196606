#compdef phase
# What zsh completes of the words of `phase`.

# The names of the sinks of the graphs among the words of the line.
_phase_sinks() {
    local word
    local -a sinks
    for word in ${words[2,-1]}; do
        [[ ! -f $word ]] || sinks+=(${(f)"$(
            sed -n 's/^[ ]*sink[ ]\{1,\}\([A-Za-z0-9_]\{1,\}\).*/\1/p' $word)"})
    done
    compadd "$@" -a sinks
}

# The same, with a `=` and then a file behind them.
_phase_sinks_to() {
    if compset -P '*='; then
        _files
    else
        _phase_sinks -S '='
    fi
}

_phase() {
    local -a commands=(check draw eval help replay run stream)
    if (( CURRENT == 2 )); then
        compadd -a commands
        compadd -- --help --version
        return
    fi
    local command=$words[2]
    shift words
    (( CURRENT-- ))
    case $command in
        help) compadd check draw eval replay run stream ;;
        replay) _arguments '--help' '--strict' '*:script:_files' ;;
        check) _arguments '--help' '--beside' '--explain' '*:graph:_files' ;;
        draw) _arguments '--help' '--explain' '*:graph:_files' ;;
        eval)
            _arguments '--help' '--beside' '--columns' '--explain' '--sink:sink:_phase_sinks' \
                '--workers:number:(1 2 4 8 16)' '*:graph:_files'
            ;;
        run)
            _arguments '--help' '--beside' '--counts' '--explain' '--sink:sink:_phase_sinks' \
                '--workers:number:(1 2 4 8 16)' '*:graph:_files'
            ;;
        stream)
            _arguments '--help' '--beside' '--columns' '--explain' '--sink:sink:_phase_sinks' \
                '*--to:sink and file:_phase_sinks_to' '*:graph:_files'
            ;;
    esac
}

if [ "$funcstack[1]" = _phase ]; then
    _phase "$@"
else
    compdef _phase phase
fi
