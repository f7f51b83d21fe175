# Completions of afdx_bench for bash.
_afdx_bench() {
    local word=${COMP_WORDS[COMP_CWORD]} before=${COMP_WORDS[COMP_CWORD - 1]} words
    case $before in
    --capture | --c | --html | --traffic | --csv | --with) words= ;;
    --profile) mapfile -t COMPREPLY < <(compgen -W 'own arinc' -- "$word") && return ;;
    --lateness | --date | --seconds | --seed | --every | --jitter | --skew | --messages | --turns) COMPREPLY=() && return ;;
    *)
        case ${COMP_CWORD}:${COMP_WORDS[1]-} in
        1:*) words='run check explain import compile report schedule judge storm --help --version' ;;
        *:run) words='--capture --help' ;;
        *:check | *:explain) words='--json --help' ;;
        *:compile) words='--c --help' ;;
        *:report) words='--lateness --html --traffic --csv --date --strict --json --help' ;;
        *:schedule) words='--traffic --seconds --seed --help' ;;
        *:judge) words='--with --jitter --skew --late --fcs --profile --constant --interfaces --html --json --all-links --foreign --by-byte --every --help' ;;
        *:storm) words='--messages --turns --help' ;;
        *) words=--help ;;
        esac
        ;;
    esac
    if [[ $word == -* || $COMP_CWORD -eq 1 ]]; then
        mapfile -t COMPREPLY < <(compgen -W "$words" -- "$word")
    else
        mapfile -t COMPREPLY < <(compgen -f -- "$word")
    fi
}
complete -o filenames -F _afdx_bench afdx_bench
