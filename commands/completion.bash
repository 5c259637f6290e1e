# Bash completion for peat-bridge, peat-host, peat-compare, peat-replay, peat-explain and peat-envelopes.

_peat_bridge() {
    local word=${COMP_WORDS[COMP_CWORD]}
    if [ "$COMP_CWORD" = 1 ]; then
        COMPREPLY=($(compgen -W 'check init join floor renumber move --standby --help --version' -- "$word") $(compgen -f -- "$word"))
    elif [ "$COMP_CWORD" = 2 ] && [[ ${COMP_WORDS[1]} == floor || ${COMP_WORDS[1]} == renumber ]]; then
        COMPREPLY=() # a number
    elif [ "$COMP_CWORD" -le 3 ]; then
        COMPREPLY=($(compgen -f -- "$word"))
    fi
}

_peat_host() {
    local word=${COMP_WORDS[COMP_CWORD]} before=${COMP_WORDS[COMP_CWORD - 1]}
    case $before in
    --pcap) COMPREPLY=($(compgen -f -- "$word")) ;;
    --record | --moves | --state) COMPREPLY=($(compgen -d -- "$word")) ;;
    --fault) COMPREPLY=($(compgen -W "$(peat-host --help 2>/dev/null | sed '1,/--fault NAME/d')" -- "$word")) ;;
    --trace) COMPREPLY=($(compgen -W "$(seq 0 55)" -- "$word")) ;;
    *) COMPREPLY=($(compgen -W '--trace --json --apart --pcap --pcap-pad --type --record --moves --state --fault --help --version' -- "$word")) ;;
    esac
}

_peat_compare() { COMPREPLY=($(compgen -W '--json --help --version' -- "${COMP_WORDS[COMP_CWORD]}") $(compgen -f -- "${COMP_WORDS[COMP_CWORD]}")); }

_peat_replay() { COMPREPLY=($(compgen -W '--help --version' -- "${COMP_WORDS[COMP_CWORD]}") $(compgen -f -- "${COMP_WORDS[COMP_CWORD]}")); }

_peat_reader() { COMPREPLY=($(compgen -W '--help --version' -- "${COMP_WORDS[COMP_CWORD]}")); }

complete -o filenames -F _peat_bridge peat-bridge
complete -o filenames -F _peat_host peat-host
complete -o filenames -F _peat_compare peat-compare
complete -o filenames -F _peat_replay peat-replay
complete -F _peat_reader peat-explain peat-envelopes
