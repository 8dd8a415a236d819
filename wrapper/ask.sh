# shellcheck shell=sh disable=SC2154 # names that the scripts set that source this
# Runs $pkcs12_program with the arguments of the command, asks at the terminal for the passwords that it lacks, and ends with its
# exit number. Sourced by ./pkcs12 and by the installed command, which set $pkcs12_scripts, the folder of this file.

# A file that may not grow any more is a failed write, and kills neither the program nor this shell.
trap '' XFSZ 2>/dev/null || :
# shellcheck source=wrapper/terminal.sh
. "$pkcs12_scripts/terminal.sh"
[ -z "$wrapper_terminal" ] || export PKCS12_ASKING=yes

# What --out names, or with --in-place the store, and whether --force is given: for what a signal leaves of it.
pkcs12_out=
pkcs12_force=
pkcs12_in_place=
pkcs12_place=
pkcs12_expected=
for pkcs12_word in "$@"; do
    case $pkcs12_expected:$pkcs12_word in
        out:*)
            pkcs12_out=$pkcs12_word
            pkcs12_expected=
            ;;
        variable:*)
            test_variable "$pkcs12_word"
            pkcs12_expected=
            ;;
        value:*) pkcs12_expected= ;;
        :--) pkcs12_expected=rest ;;
        :--force) pkcs12_force=yes ;;
        :--in-place) pkcs12_in_place=yes ;;
        :--out) pkcs12_expected=out ;;
        :--out=*) pkcs12_out=${pkcs12_word#--out=} ;;
        :--password-env | :--new-password-env) pkcs12_expected=variable ;;
        :--password-env=* | :--new-password-env=*) test_variable "${pkcs12_word#*=}" ;;
        :--*-file | :--*limit | :--rounds | :--format | :--most-files | :--key | :--certificate | :--chain | :--name) pkcs12_expected=value ;;
        :-*) ;;
        *) pkcs12_place=$pkcs12_word ;;
    esac
done
[ -z "$pkcs12_in_place" ] || pkcs12_out=$pkcs12_place
while [ "${pkcs12_out%/}" != "$pkcs12_out" ]; do pkcs12_out=${pkcs12_out%/}; done

# The program cannot ask whether what it replaces has an access control list, which shows in the group's bits of the mode; ls marks it
# by a plus.
is_listed() {
    [ -n "$pkcs12_out" ] && [ -e "$pkcs12_out" ] || return 1
    { LC_ALL=C ls -ld -- "$pkcs12_out" && { [ ! -d "$pkcs12_out" ] || LC_ALL=C ls -lA -- "$pkcs12_out"; }; } 2>/dev/null |
        LC_ALL=C grep -q '^[-d][-rwxsStT]\{9\}+'
}
! is_listed || export PKCS12_LISTED=1

# Prints the number by which the file system knows the folder $1.
identity() {
    pkcs12_line=$(ls -di -- "$1" 2>/dev/null) || return 0
    pkcs12_line=${pkcs12_line#"${pkcs12_line%%[0-9]*}"}
    echo "${pkcs12_line%%[!0-9]*}"
}
pkcs12_replaced=
[ -z "$pkcs12_force" ] || [ ! -d "$pkcs12_out" ] || pkcs12_replaced=$(identity "$pkcs12_out")

# The number of the user whose folder or store is replaced: root's run gives the new one to that user.
pkcs12_owner=
[ -z "$pkcs12_out" ] || [ ! -e "$pkcs12_out" ] || pkcs12_owner=$(stat -c %u -- "$pkcs12_out" 2>/dev/null) || pkcs12_owner=

# Whether $1 is of the user who runs this, or of the one whose folder or store is replaced. Others may have put theirs there, as in /tmp.
is_own() {
    [ -O "$1" ] || { [ -n "$pkcs12_owner" ] && [ "$(stat -c %u -- "$1" 2>/dev/null)" = "$pkcs12_owner" ]; }
}

# Whether $1 is such a folder, and no link to one.
is_own_folder() {
    [ -d "$1" ] && [ ! -L "$1" ] && is_own "$1"
}

# The same of a file.
is_own_file() {
    [ -f "$1" ] && [ ! -L "$1" ] && is_own "$1"
}

# Removes what the process $1 left half done, and puts back the folder that it was about to replace. That is known by its identity,
# since a run of the same process number may have left another one under this name.
tidy() {
    [ -n "$pkcs12_out" ] || return 0
    ! is_own_folder "$pkcs12_out.part-$1" || rm -rf -- "$pkcs12_out.part-$1"
    ! is_own_file "$pkcs12_out.part-$1" || rm -f -- "$pkcs12_out.part-$1"
    [ -n "$pkcs12_replaced" ] && is_own_folder "$pkcs12_out.old-$1" || return 0
    [ "$(identity "$pkcs12_out.old-$1")" = "$pkcs12_replaced" ] || return 0
    if [ -e "$pkcs12_out" ]; then
        rm -rf -- "$pkcs12_out.old-$1"
    else
        mv -T -- "$pkcs12_out.old-$1" "$pkcs12_out"
    fi
}

pkcs12_child=
pkcs12_before=
pkcs12_starting=
# Gives the terminal its echo back, ends the program, and removes what it has begun to write. No further signal stops that.
clean_up() {
    trap '' HUP INT QUIT TERM TSTP
    restore_terminal
    # The signal may have come when the program had been started and its number was not noted yet.
    [ -z "$pkcs12_starting" ] || [ "${!-}" = "$pkcs12_before" ] || pkcs12_child=$!
    if [ -n "$pkcs12_child" ]; then
        kill "$pkcs12_child" 2>/dev/null || :
        kill -CONT "$pkcs12_child" 2>/dev/null || :
        wait "$pkcs12_child" 2>/dev/null || :
        tidy "$pkcs12_child"
    fi
}
# Ends for the signal $1. Ignoring the next one begins here, since clean_up is not there yet.
end_by() {
    trap '' HUP INT QUIT TERM
    exit $((128 + $1))
}
trap clean_up EXIT
trap 'end_by 1' HUP
trap 'end_by 2' INT
trap 'end_by 3' QUIT
trap 'end_by 15' TERM

# Runs the program with these arguments, and leaves its exit number in $pkcs12_status. What was asked for is handed over in
# variables that only its own process has: a here-document may be a file of TMPDIR, and other users can read arguments.
pkcs12_has_password=
pkcs12_has_new_password=
run() {
    pkcs12_subcommand=${1-}
    [ $# -eq 0 ] || shift
    [ -z "$pkcs12_has_new_password" ] || set -- --new-password-env pkcs12_new_password "$@"
    [ -z "$pkcs12_has_password" ] || set -- --password-env pkcs12_password "$@"
    [ -z "$pkcs12_subcommand" ] || set -- "$pkcs12_subcommand" "$@"
    pkcs12_before=${!-}
    pkcs12_starting=yes
    (
        [ -z "$pkcs12_has_password" ] || export pkcs12_password
        [ -z "$pkcs12_has_new_password" ] || export pkcs12_new_password
        exec "$pkcs12_program" "$@" <&7 7<&-
    ) &
    pkcs12_child=$!
    pkcs12_starting=
    pkcs12_status=0
    wait "$pkcs12_child" || pkcs12_status=$?
    [ "$pkcs12_status" -le 128 ] || tidy "$pkcs12_child"
    pkcs12_child=
}

# A program in the background has no standard input but what it is given. In place of a closed one it is given one that cannot be
# read, and not one that is empty.
if (: 7<&0) 2>/dev/null; then
    exec 7<&0
else
    exec 7>/dev/null
fi
pkcs12_question="Password of the store"
case ${1-} in
    rekey) pkcs12_new_question="New password of the store" ;;
    create)
        pkcs12_question="Password of the private keys"
        pkcs12_new_question="Password of the new store"
        ;;
    *) pkcs12_new_question="New password for the private keys" ;;
esac
while :; do
    run "$@"
    if [ "$pkcs12_status" -eq 8 ] && [ -n "$wrapper_terminal" ] && [ -z "$pkcs12_has_password" ]; then
        ask "$pkcs12_question"
        pkcs12_password=$wrapper_answered
        pkcs12_has_password=yes
    elif [ "$pkcs12_status" -eq 9 ] && [ -n "$wrapper_terminal" ] && [ -z "$pkcs12_has_new_password" ]; then
        ask "$pkcs12_new_question"
        pkcs12_new_password=$wrapper_answered
        ask "The same again"
        if [ "$wrapper_answered" != "$pkcs12_new_password" ]; then
            echo "pkcs12: PasswordUnusable (22): the two new passwords differ" >&2
            exit 22
        fi
        pkcs12_has_new_password=yes
    else
        exit "$pkcs12_status"
    fi
done
