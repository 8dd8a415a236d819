#!/bin/sh
# A login over the command passdb: login.sh FILE NAME, with the password as the first line of the standard input. It ends with 0 where the
# password is that of the name, with 1 where it is not, and with 2 where nothing can be said. It takes as long for a name that is unknown.
set -u

[ $# -eq 2 ] || {
    echo "login.sh FILE NAME, with the password on the standard input" >&2
    exit 2
}
# A name that passdb has none of; after -- it would not be an option either.
case $2 in
    '' | *[!abcdefghijklmnopqrstuvwxyz0123456789-]*) exit 1 ;;
esac
[ "${#2}" -le 32 ] || exit 1
code=0
"${PASSDB:-passdb}" check --even --password-stdin -- "$1" "$2" >/dev/null || code=$?
case $code in
    0) exit 0 ;;
    10 | 11 | 22) exit 1 ;;
    *) exit 2 ;;
esac
