# shellcheck shell=sh disable=SC2154 # names that the scripts set that source this
# Runs $passdb_program with the arguments of the command, asks at the terminal for the passwords that it lacks, and ends with its
# exit number. Sourced by ./passdb and by the installed command, which set $passdb_scripts, the folder of this file.

# Nobody else says that this asks, or that a file has a list.
unset PASSDB_ASKING PASSDB_LISTED
# A file that may not grow any more is a failed write, and kills neither the program nor this shell.
trap '' XFSZ 2>/dev/null || :
# shellcheck source=wrapper/terminal.sh
. "$passdb_scripts/terminal.sh"
[ -z "$wrapper_terminal" ] || export PASSDB_ASKING=1

# The file and the name, which are the second and third arguments that are no options.
passdb_file=
passdb_name=
passdb_place=0
passdb_expected=
for passdb_word in "$@"; do
    case $passdb_expected:$passdb_word in
        value:*) passdb_expected= ;;
        variable:*)
            test_variable "$passdb_word"
            passdb_expected=
            ;;
        :--) passdb_expected=rest ;;
        :--password-env | :--new-password-env) passdb_expected=variable ;;
        :--password-env=* | :--new-password-env=*) test_variable "${passdb_word#*=}" ;;
        :--password-file | :--new-password-file | :--rounds) passdb_expected=value ;;
        :-?*) ;;
        *)
            passdb_place=$((passdb_place + 1))
            [ "$passdb_place" -ne 2 ] || passdb_file=$passdb_word
            [ "$passdb_place" -ne 3 ] || passdb_name=$passdb_word
            ;;
    esac
done
passdb_real=
[ -z "$passdb_file" ] || passdb_real=$(readlink -f -- "$passdb_file") || passdb_real=
# The program cannot ask whether the file has an access control list, which shows in the group's bits of the mode; ls marks it by a plus.
passdb_mode=
[ -z "$passdb_real" ] || passdb_mode=$(LC_ALL=C ls -ld -- "$passdb_real" 2>/dev/null) || passdb_mode=
case ${passdb_mode%% *} in *+) export PASSDB_LISTED=1 ;; esac

# Removes what the process $1 left where a signal ended it: the file that it had begun, and that of its lock where nobody has it. A lock
# itself ends with its process, so nobody waits for one that stays where there is no flock.
tidy() {
    [ -n "$passdb_real" ] || return 0
    rm -f -- "$passdb_real.part-$1"
    # Others may have put a pipe there, as in /tmp, which would be waited for.
    [ ! -L "$passdb_real.lock" ] && [ -f "$passdb_real.lock" ] && command -v flock >/dev/null || return 0
    (
        exec 9<"$passdb_real.lock" && flock -n 9 && [ "$passdb_real.lock" -ef /dev/fd/9 ] && rm -f -- "$passdb_real.lock"
    ) 2>/dev/null || :
}

passdb_child=
passdb_before=
passdb_starting=
# Gives the terminal its echo back, ends the program, and removes what it has begun to write. No further signal stops that.
clean_up() {
    trap '' HUP INT QUIT TERM TSTP
    restore_terminal
    # The signal may have come when the program had been started and its number was not noted yet.
    [ -z "$passdb_starting" ] || [ "${!-}" = "$passdb_before" ] || passdb_child=$!
    if [ -n "$passdb_child" ]; then
        kill "$passdb_child" 2>/dev/null || :
        kill -CONT "$passdb_child" 2>/dev/null || :
        wait "$passdb_child" 2>/dev/null || :
        tidy "$passdb_child"
    fi
}
# Ends for the signal $1. Ignoring the next one begins here, since clean_up is not there yet.
end_by() {
    trap '' HUP INT QUIT TERM
    exit $((128 + $1))
}
trap clean_up EXIT
trap 'end_by 1' HUP
trap 'end_by 2' INT
trap 'end_by 3' QUIT
trap 'end_by 15' TERM

# Runs the program with these arguments, and leaves its exit number in $passdb_status. What was asked for is handed over in variables
# that only its own process has: a here-document may be a file of TMPDIR, and other users can read arguments.
passdb_has_password=
passdb_has_new_password=
run() {
    passdb_subcommand=${1-}
    [ $# -eq 0 ] || shift
    passdb_option=--new-password-env
    case $passdb_subcommand in add | reset) passdb_option=--password-env ;; esac
    [ -z "$passdb_has_new_password" ] || set -- "$passdb_option" passdb_new_password "$@"
    [ -z "$passdb_has_password" ] || set -- --password-env passdb_password "$@"
    [ -z "$passdb_subcommand" ] || set -- "$passdb_subcommand" "$@"
    passdb_before=${!-}
    passdb_starting=yes
    (
        [ -z "$passdb_has_password" ] || export passdb_password
        [ -z "$passdb_has_new_password" ] || export passdb_new_password
        exec "$passdb_program" "$@" <&7 7<&-
    ) &
    passdb_child=$!
    passdb_starting=
    passdb_status=0
    wait "$passdb_child" || passdb_status=$?
    [ "$passdb_status" -le 128 ] || tidy "$passdb_child"
    passdb_child=
}

# Whose password is asked for, and in which file, where a terminal shows both as they are. The program has looked at both by then.
passdb_whose=
case $passdb_file$passdb_name in
    *[!A-Za-z0-9./_~,+=@%:-]*) ;;
    *) passdb_whose=" of $passdb_name in $passdb_file" ;;
esac

# A program in the background has no standard input but what it is given. In place of a closed one it is given one that cannot be
# read, and not one that is empty.
if (: 7<&0) 2>/dev/null; then
    exec 7<&0
else
    exec 7>/dev/null
fi
while :; do
    run "$@"
    if [ "$passdb_status" -eq 8 ] && [ -n "$wrapper_terminal" ] && [ -z "$passdb_has_password" ]; then
        ask "Password$passdb_whose"
        passdb_password=$wrapper_answered
        passdb_has_password=yes
    elif [ "$passdb_status" -eq 9 ] && [ -n "$wrapper_terminal" ] && [ -z "$passdb_has_new_password" ]; then
        ask "New password$passdb_whose"
        passdb_new_password=$wrapper_answered
        ask "The same again"
        if [ "$wrapper_answered" != "$passdb_new_password" ]; then
            echo "passdb: PasswordUnusable (22): the two new passwords differ" >&2
            exit 22
        fi
        passdb_has_new_password=yes
    else
        exit "$passdb_status"
    fi
done
