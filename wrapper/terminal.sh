# shellcheck shell=sh disable=SC2154 # $wrapper_name is the command's name, which the script sets that sources this
# Asks for a line at the terminal without echo, and tests names of variables. Sourced by ask.sh and by ./passdb.

# The terminal, if there is one: standard input may be the store, or a password.
wrapper_terminal=
if (: </dev/tty) 2>/dev/null; then
    wrapper_terminal=/dev/tty
fi

wrapper_settings=
# Gives the terminal its echo back.
restore_terminal() {
    [ -z "$wrapper_settings" ] || stty "$wrapper_settings" <"$wrapper_terminal"
    wrapper_settings=
}

# Turns the echo off and shows the question, at first and whenever the run goes on after it was stopped.
wrapper_question=
show_question() {
    wrapper_continued=yes
    stty -echo <"$wrapper_terminal"
    printf '%s: ' "$wrapper_question" >"$wrapper_terminal"
}
# Stops as Ctrl-Z asks for, with the echo on, since not every shell turns it on when it comes to the front again.
stop_asking() {
    stty "$wrapper_settings" <"$wrapper_terminal"
    printf '\n' >"$wrapper_terminal"
    trap - TSTP CONT
    kill -TSTP $$
    catch_stops
    show_question
}
# Whether the shell at the terminal waits for this very process. Where it waits for a script that has started this one, it is back
# at the terminal as soon as that has stopped, and nobody else may set it.
is_waited_for() {
    wrapper_line=
    read -r wrapper_line 2>/dev/null <"/proc/$$/stat" || :
    # The name, which may have spaces, stands in parentheses; then come the state, the parent and the group.
    # shellcheck disable=SC2086
    set -- ${wrapper_line##*) }
    [ "${3-}" = $$ ]
}
catch_stops() {
    trap show_question CONT
    [ -z "$wrapper_is_waited_for" ] || trap stop_asking TSTP
}

# Asks for a line with the words $1, without echo, and leaves it in $wrapper_answered.
ask() {
    wrapper_question=$1
    wrapper_settings=$(stty -g <"$wrapper_terminal")
    wrapper_is_waited_for=
    ! is_waited_for || wrapper_is_waited_for=yes
    catch_stops
    show_question
    wrapper_read=
    while [ -z "$wrapper_read" ]; do
        # Some shells end `read` when a signal was handled, and some go on with it.
        wrapper_continued=
        wrapper_answered=
        if IFS= read -r wrapper_answered <"$wrapper_terminal"; then
            wrapper_read=line
        elif [ -z "$wrapper_continued" ]; then
            wrapper_read=end
        fi
    done
    trap - TSTP CONT
    stty "$wrapper_settings" <"$wrapper_terminal"
    wrapper_settings=
    printf '\n' >"$wrapper_terminal"
    # Ctrl-D
    [ "$wrapper_read$wrapper_answered" != end ] || give_up "no password was typed"
}
give_up() {
    printf '%s: PasswordMissing (8): %s\n' "$wrapper_name" "$1" >&2
    exit 8
}

# Ends where a shell does not hand on the variable $1 as it was: the program would find none, or another value. The name is not shown, since
# somebody may have given the password itself.
test_variable() {
    case $1 in
        '' | [0-9]* | *[!A-Za-z0-9_]*) wrapper_reason="of letters, digits and underscores: a shell hands on no other" ;;
        _ | IFS | OLDPWD | OPTIND | PPID | PWD | SHLVL | PKCS12_ASKING | PASSDB_ASKING | PASSDB_WAITING | pkcs12_* | passdb_* | wrapper_*)
            wrapper_reason="which is none that a shell sets itself, and does not begin with pkcs12_, passdb_ or wrapper_"
            ;;
        *) return 0 ;;
    esac
    printf '%s: Usage (2): the password is given in an environment variable by its name, %s\n' "$wrapper_name" "$wrapper_reason" >&2
    exit 2
}
