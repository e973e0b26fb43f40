# What Bash completes of cubesat's command lines. `bin/completions` writes this from the program's help.
_cubesat() {
    local word="${COMP_WORDS[COMP_CWORD]}" before="${COMP_WORDS[COMP_CWORD - 1]}" options='' takes=''
    COMPREPLY=()
    # Bash takes --search=NAME for three words
    if [ "$word" = = ]; then
        word=
    elif [ "$before" = = ]; then
        before="${COMP_WORDS[COMP_CWORD - 2]}"
    fi
    if [ "$COMP_CWORD" = 1 ]; then
        options='-h --help -V --version'
        takes='solve check tidy session models divide conquer gather status explain help'
    else
        case "${COMP_WORDS[1]}" in
            solve) options='--search --budget --divide --simplify --any-model --hands --seconds --proof --lenient --large --stats --progress --verbose -h --help' takes='FILES' ;;
            check) options='--drat --binary --lrat --extended --distinct-status --lenient --large --stats --progress --verbose -h --help' takes='FILES' ;;
            tidy) options='--lenient --large -h --help' takes='FILES' ;;
            session) options='--model -h --help' takes='FILES' ;;
            models) options='--limit --project --count --lenient --large -h --help' takes='FILES' ;;
            divide) options='--into --search --budget --divide --simplify --any-model --large --progress -h --help' takes='FILES' ;;
            conquer) options='--round --part --minutes --hands --progress -h --help' takes='FOLDERS' ;;
            gather) options='--proof --hands --solve --stats --progress -h --help' takes='FOLDERS' ;;
            status) options='-h --help' takes='FOLDERS' ;;
            explain) options='-h --help' takes='' ;;
            help) options='' takes='solve check tidy session models divide conquer gather status explain help' ;;
        esac
    fi
    case "$before" in
        --search) takes='automatic ordered focused' ;;
        --budget | --divide | --hands | --seconds | --limit | --project | --round | --part | --minutes) takes='' ;;
        --simplify | --model) takes='yes no' ;;
        --proof | --lrat) takes='FILES' ;;
        --into) takes='FOLDERS' ;;
        *) [[ "$word" != -* ]] || takes="$options" ;;
    esac
    case "$takes" in
        FILES) compopt -o default ;;
        FOLDERS) compopt -o dirnames ;;
        *) mapfile -t COMPREPLY < <(compgen -W "$takes" -- "$word") ;;
    esac
}
complete -F _cubesat cubesat
