# Completion of localise for bash. Made by docs/help_files.py
_localise() {
    local word=${COMP_WORDS[COMP_CWORD]} before=${COMP_WORDS[COMP_CWORD - 1]} words=
    COMPREPLY=()
    if ((COMP_CWORD == 1)); then
        mapfile -t COMPREPLY < <(compgen -W "sim find check make help --help --version" -- "$word")
        return
    fi
    case ${COMP_WORDS[1]} in
        sim) words="--clock --scope --x-inputs --format --exit-code" ;;
        find) words="--format --clock --scope --x-inputs --size --suspects --budget --sets --workers --log --report --waves --checkpoint --resume --resume-log" ;;
        check) words="--workers --format --scope --x-inputs" ;;
        make) words="--design --trace --size --suspects --budget --sets --workers --log --report" ;;
        help) mapfile -t COMPREPLY < <(compgen -W "sim find check make" -- "$word") && return ;;
    esac
    [[ $word == = ]] && word=
    [[ $before == = ]] && before=${COMP_WORDS[COMP_CWORD - 2]}
    if [[ $before == --suspects ]]; then
        local front=
        [[ $word == *,* ]] && front=${word%,*},
        mapfile -t COMPREPLY < <(compgen -P "$front" -W "and block gate instance module stmt" -- "${word##*,}")
    elif [[ $before == --format ]]; then
        mapfile -t COMPREPLY < <(compgen -W "verilog aiger" -- "$word")
    elif [[ $word == -* ]]; then
        mapfile -t COMPREPLY < <(compgen -W "$words" -- "$word")
    else
        mapfile -t COMPREPLY < <(compgen -f -- "$word")
    fi
}
complete -o filenames -F _localise localise
