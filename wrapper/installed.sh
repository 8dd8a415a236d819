#!/bin/sh
# The installed command pkcs12: runs the program beside it, and asks for passwords at a terminal. `pkcs12 uninstall` removes it.
set -eu
# Passwords and keys are not to lie in the file of a crash.
ulimit -c 0 2>/dev/null || :
# A shell needs more descriptors than the program does.
[ "$(ulimit -n)" -ge 20 ] || ulimit -S -n 20 || :
# Every variable here begins with pkcs12_ or wrapper_, since any other may be one that --password-env names.
unset PKCS12_ASKING PKCS12_LISTED pkcs12_password pkcs12_new_password wrapper_answered
wrapper_name=pkcs12

# The folder that it was installed below: by the path at which it was called, or by that to which a link there leads, since bin may be a
# link to another folder; else by where all links lead to; else the one that was named when it was installed.
pkcs12_installed=
pkcs12_self=$0
case $0 in
    /*) ;;
    *) pkcs12_self=${PWD-}/${0#./} ;;
esac
pkcs12_prefix=${pkcs12_self%/bin/"${pkcs12_self##*/}"}
pkcs12_links=0
while [ ! -f "$pkcs12_self" ] || [ ! -f "$pkcs12_prefix/lib/pkcs12/install.sh" ]; do
    if [ -L "$pkcs12_self" ] && [ "$pkcs12_links" -lt 40 ]; then
        pkcs12_links=$((pkcs12_links + 1))
        pkcs12_link=$(readlink -- "$pkcs12_self")
        case $pkcs12_link in
            /*) pkcs12_self=$pkcs12_link ;;
            *) pkcs12_self=${pkcs12_self%/*}/$pkcs12_link ;;
        esac
        pkcs12_prefix=${pkcs12_self%/bin/"${pkcs12_self##*/}"}
    else
        pkcs12_self=$(readlink -f -- "$0")
        pkcs12_prefix=${pkcs12_self%/bin/*}
        break
    fi
done
[ -f "$pkcs12_prefix/lib/pkcs12/install.sh" ] || [ -z "$pkcs12_installed" ] || pkcs12_prefix=$pkcs12_installed
if [ ! -f "$pkcs12_prefix/lib/pkcs12/install.sh" ]; then
    printf '%s\n' "pkcs12: BuildFailed (1): what $0 was installed with is not below $pkcs12_prefix" >&2
    exit 1
fi
pkcs12_scripts=$pkcs12_prefix/lib/pkcs12
pkcs12_program=$pkcs12_scripts/pkcs12
if [ "${1-}" = uninstall ]; then
    . "$pkcs12_scripts/install.sh"
    [ $# -eq 1 ] || wrong_use "$0 uninstall removes itself, and takes no arguments"
    # That is for packagers, who run the script of the tree.
    unset DESTDIR
    uninstall "$pkcs12_prefix/"
    exit 0
fi
. "$pkcs12_scripts/ask.sh"
