# Completions of sioaudit for bash: source this file in ~/.bashrc, or put it into
# ~/.local/share/bash-completion/completions/ under the name sioaudit.

# the options of a command
_sioaudit_options() {
    case $1 in
        '') echo '-h --help -V --version' ;;
        audit) echo '--whole --workers --quiet -h --help -V --version' ;;
        explain) echo '--pid --only --record --lines --json --html --fail-on --whole --workers --quiet -h --help -V --version' ;;
        simulate) echo '--nodes --clients --acts --seed --fault -h --help -V --version' ;;
        prove | verify | order | upgrade) echo '--quiet -h --help -V --version' ;;
        split) echo '--parts --bytes --into --workers --quiet -h --help -V --version' ;;
        merge) echo '-h --help -V --version' ;;
    esac
}

# the values of an option of a command, and whether it takes one: a status of 1 says that it doesn't
_sioaudit_values() {
    case $1$2 in
        audit--workers | explain--workers | split--workers) echo '1 2 4 8 16 32 64' ;;
        explain--only) echo 'no delivery packets recording NOLOG CHAIN ORDER CLIENT NAMES FRAME ORPHAN CONTENT EXTRA DOUBLED SWAPPED LOST WINDOW TAIL' ;;
        explain--fail-on) echo 'delivery packets recording refused nothing NOLOG CHAIN ORDER CLIENT NAMES FRAME ORPHAN CONTENT EXTRA DOUBLED SWAPPED LOST WINDOW TAIL' ;;
        explain--pid | explain--record | split--parts) ;;
        split--bytes) echo '64M 256M 1G 4G' ;;
        simulate--fault) echo 'drop double hold alter garble lose-attachment lag unknown-offset cut-before-reply no-reply other-sid no-open no-join no-break take-twice' ;;
        simulate--nodes | simulate--clients | simulate--acts | simulate--seed) ;;
        *) return 1 ;;
    esac
}

# completes the word as the name of a file
_sioaudit_files() {
    compopt -o filenames 2>/dev/null
    mapfile -t COMPREPLY < <(compgen -f -- "$1")
}

_sioaudit() {
    local commands='audit explain prove verify order upgrade split merge simulate'
    local current=${COMP_WORDS[COMP_CWORD]} before=${COMP_WORDS[COMP_CWORD - 1]}
    local command='' values front i
    COMPREPLY=()

    for ((i = 1; i < COMP_CWORD; i++)); do
        [[ " $commands " == *" ${COMP_WORDS[i]} "* ]] && { command=${COMP_WORDS[i]}; break; }
    done

    # bash cuts --name=value at the sign
    if [[ $current == '=' ]]; then
        current=''
    elif [[ $before == '=' ]]; then
        before=${COMP_WORDS[COMP_CWORD - 2]}
    fi

    if [[ $before == [\<\>] ]]; then
        _sioaudit_files "$current"
    elif [[ -n $command ]] && values=$(_sioaudit_values "$command" "$before"); then
        # of values that commas separate, the last one is completed
        front=${current%"${current##*,}"}
        mapfile -t COMPREPLY < <(compgen -P "$front" -W "$values" -- "${current#"$front"}")
    elif [[ $current == -* ]]; then
        mapfile -t COMPREPLY < <(compgen -W "$(_sioaudit_options "$command")" -- "$current")
    elif [[ -z $command ]]; then
        mapfile -t COMPREPLY < <(compgen -W "$commands" -- "$current")
    elif [[ $command != simulate ]]; then
        _sioaudit_files "$current"
    fi
}

complete -F _sioaudit sioaudit ./sioaudit
