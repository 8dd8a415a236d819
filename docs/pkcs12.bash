# Completion of ./pkcs12 in bash: source this file.
_pkcs12() {
    local word=${COMP_WORDS[COMP_CWORD]} before=
    [ "$COMP_CWORD" -eq 0 ] || before=${COMP_WORDS[COMP_CWORD - 1]}
    local common="--password-file --password-env --password-stdin --limit --help"
    COMPREPLY=()
    case $before in
        --format)
            mapfile -t COMPREPLY < <(compgen -W "pem der" -- "$word")
            return
            ;;
        --out)
            # a file of rekey and create, and else a folder
            if [ "${COMP_WORDS[1]}" = rekey ] || [ "${COMP_WORDS[1]}" = create ]; then
                mapfile -t COMPREPLY < <(compgen -f -- "$word")
            else
                mapfile -t COMPREPLY < <(compgen -d -- "$word")
            fi
            return
            ;;
        --password-env | --new-password-env)
            mapfile -t COMPREPLY < <(compgen -e -- "$word")
            return
            ;;
        --rounds | --limit | --seal-limit | --most-files | --expires-within | --name) return ;;
        --key | --certificate)
            mapfile -t COMPREPLY < <(compgen -f -- "$word")
            return
            ;;
    esac
    if [ "$COMP_CWORD" -eq 1 ]; then
        mapfile -t COMPREPLY < <(compgen -W "check list export rekey create self-test uninstall --help --version" -- "$word")
    elif [ "${COMP_WORDS[1]}" = self-test ]; then
        mapfile -t COMPREPLY < <(compgen -W "--help" -- "$word")
    elif [ "${word#-}" = "$word" ]; then
        mapfile -t COMPREPLY < <(compgen -f -- "$word")
    elif [ "${COMP_WORDS[1]}" = export ]; then
        mapfile -t COMPREPLY < <(compgen -W "$common --out --format --keys-only --certificates-only --one-file --names --chain --force \
            --skip-others --verbose --new-password-file --new-password-env --new-password-stdin --same-password \
            --allow-empty-password --rounds --seal-limit --most-files --modern-only --allow-no-mac" -- "$word")
    elif [ "${COMP_WORDS[1]}" = rekey ]; then
        mapfile -t COMPREPLY < <(compgen -W "$common --out --in-place --force --upgrade --rounds --verbose --new-password-file \
            --new-password-env --new-password-stdin --same-password --allow-empty-password" -- "$word")
    elif [ "${COMP_WORDS[1]}" = create ]; then
        mapfile -t COMPREPLY < <(compgen -W "$common --key --certificate --chain --name --out --force --rounds --verbose --new-password-file \
            --new-password-env --new-password-stdin --allow-empty-password" -- "$word")
    elif [ "${COMP_WORDS[1]}" = list ]; then
        mapfile -t COMPREPLY < <(compgen -W "$common --json --expires-within --modern-only --allow-no-mac" -- "$word")
    else
        mapfile -t COMPREPLY < <(compgen -W "$common --json --modern-only --allow-no-mac" -- "$word")
    fi
}
complete -o filenames -F _pkcs12 pkcs12 ./pkcs12
