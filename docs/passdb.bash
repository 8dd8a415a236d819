# Completion of ./passdb in bash: source this file.
_passdb() {
    local word=${COMP_WORDS[COMP_CWORD]} before=
    [ "$COMP_CWORD" -eq 0 ] || before=${COMP_WORDS[COMP_CWORD - 1]}
    local common="--password-file --password-env --password-stdin --rounds --help"
    COMPREPLY=()
    case $before in
        --password-env | --new-password-env)
            mapfile -t COMPREPLY < <(compgen -e -- "$word")
            return
            ;;
        --rounds) return ;;
    esac
    if [ "$COMP_CWORD" -eq 1 ]; then
        mapfile -t COMPREPLY < <(compgen -W "add check change reset remove list uninstall --help --version" -- "$word")
    elif [ "${word#-}" = "$word" ]; then
        mapfile -t COMPREPLY < <(compgen -f -- "$word")
    else
        case ${COMP_WORDS[1]} in
            add | reset) mapfile -t COMPREPLY < <(compgen -W "$common" -- "$word") ;;
            check) mapfile -t COMPREPLY < <(compgen -W "$common --even --no-renew" -- "$word") ;;
            change)
                mapfile -t COMPREPLY < <(compgen -W "$common --new-password-file --new-password-env --new-password-stdin" -- "$word")
                ;;
            remove | list) mapfile -t COMPREPLY < <(compgen -W "--help" -- "$word") ;;
        esac
    fi
}
complete -o filenames -F _passdb passdb ./passdb
