# Completions of afdx_play for bash.
_afdx_play() {
    local word=${COMP_WORDS[COMP_CWORD]} before=${COMP_WORDS[COMP_CWORD - 1]}
    local words='--traffic --seconds --seed --as-written --speed --repeat --capture --priority --fault --help --version'
    case $before in
    --seconds | --seed | --speed | --repeat) COMPREPLY=() && return ;;
    --fault) mapfile -t COMPREPLY < <(compgen -W 'lose repeat swap number early flip down' -- "$word") && return ;;
    esac
    if [[ $word == -* ]]; then
        mapfile -t COMPREPLY < <(compgen -W "$words" -- "$word")
    else
        mapfile -t COMPREPLY < <(compgen -f -- "$word"; compgen -W "$(ls /sys/class/net 2>/dev/null)" -- "$word")
    fi
}
complete -o filenames -F _afdx_play afdx_play
