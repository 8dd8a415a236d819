# shellcheck shell=sh disable=SC2154 # names that the scripts set that source this
# Installs the command $wrapper_name below a prefix, and removes it again. Sourced by ./pkcs12 and ./passdb after build.sh, and for
# `uninstall` alone by the installed commands; passdb has its own of some of these in install_passdb.sh.

# The folders that `install` made, one a line, so that `uninstall` removes no other.
pkcs12_made=lib/$wrapper_name/made
# That is there where the library for C was installed too.
pkcs12_with_library=lib/pkcs12/with-library
# Everything that is installed, below the prefix.
pkcs12_files='bin/pkcs12
lib/pkcs12/pkcs12
lib/pkcs12/ask.sh
lib/pkcs12/terminal.sh
lib/pkcs12/install.sh
share/man/man1/pkcs12.1
share/bash-completion/completions/pkcs12
share/doc/pkcs12/README.md
share/doc/pkcs12/CHANGELOG.md
share/doc/pkcs12/LICENSE-APACHE
share/doc/pkcs12/LICENSE-MIT'
# The folder of libraries below the prefix, which --libdir names; where it is another one, `uninstall` reads it in this file.
pkcs12_libdir=lib
pkcs12_libdir_note=lib/pkcs12/libdir
# Prints what is installed besides, where there is a compiler of C.
library_files() {
    printf '%s\n' include/pkcs12.h "$pkcs12_libdir/libpkcs12.a" "$pkcs12_libdir/libpkcs12.so.1" "$pkcs12_libdir/libpkcs12.so" \
        "$pkcs12_libdir/pkgconfig/pkcs12.pc" "$pkcs12_libdir_note" "$pkcs12_with_library"
}

not_installed() {
    printf '%s: BuildFailed (1): not installed: %s\n' "$wrapper_name" "$1" >&2
    exit 1
}
wrong_use() {
    printf '%s: Usage (2): %s\n' "$wrapper_name" "$1" >&2
    exit 2
}

# Says what has been done. Where the output is closed or full it is done all the same.
tell() {
    printf '%s\n' "$1" 2>/dev/null || :
}
# The same on the standard error.
warn() {
    printf '%s\n' "$1" >&2 2>/dev/null || :
}

# Leaves in $pkcs12_absolute the path $1 from the root. A shell whose folder was removed has none to begin from.
make_absolute() {
    pkcs12_absolute=$1
    case $1 in
        /* | '') return 0 ;;
    esac
    [ -n "${PWD-}" ] && [ -d "$PWD" ] || wrong_use "this folder is not there any more: give a path from the root"
    pkcs12_absolute=$PWD/$1
}

# Leaves in $pkcs12_top the folder below which files go for the arguments [--libdir=DIR] [PREFIX].
find_prefix() {
    case ${1-} in
        --libdir=*)
            pkcs12_libdir=${1#--libdir=}
            shift
            ;;
        --libdir)
            [ $# -ge 2 ] || wrong_use "--libdir takes a folder below the prefix, as lib/x86_64-linux-gnu"
            pkcs12_libdir=$2
            shift 2
            ;;
    esac
    while [ "${pkcs12_libdir%/}" != "$pkcs12_libdir" ]; do pkcs12_libdir=${pkcs12_libdir%/}; done
    case /$pkcs12_libdir/ in
        // | */../* | */./* | *//* | /-* | *[!A-Za-z0-9/._+-]*) wrong_use "--libdir takes a folder below the prefix, as lib/x86_64-linux-gnu" ;;
    esac
    [ $# -le 1 ] || wrong_use "one folder at most, the prefix: ./$wrapper_name install [PREFIX]"
    if [ $# -eq 1 ]; then
        pkcs12_prefix=$1
    else
        [ -n "${HOME-}" ] || wrong_use "HOME is not set: name the prefix"
        pkcs12_prefix=$HOME/.local
    fi
    case $pkcs12_prefix in
        -* | '') wrong_use "the prefix is a folder, as in ./$wrapper_name install /usr/local" ;;
    esac
    make_absolute "$pkcs12_prefix"
    pkcs12_prefix=$pkcs12_absolute
    while [ "${pkcs12_prefix%/}" != "$pkcs12_prefix" ]; do pkcs12_prefix=${pkcs12_prefix%/}; done
    make_absolute "${DESTDIR-}"
    pkcs12_top=$pkcs12_absolute$pkcs12_prefix
    while [ "${pkcs12_top%/}" != "$pkcs12_top" ]; do pkcs12_top=${pkcs12_top%/}; done
}

# Refuses to write over those of the files $2 that are there and not of an earlier installation, which has left the file $1.
refuse_others() {
    for pkcs12_each in $2; do
        pkcs12_there=$pkcs12_top/$pkcs12_each
        [ -e "$pkcs12_there" ] || [ -L "$pkcs12_there" ] || continue
        [ -f "$pkcs12_top/$1" ] || not_installed "$pkcs12_there is there, and is not of this command"
        [ ! -d "$pkcs12_there" ] || not_installed "$pkcs12_there is a folder"
    done
}

# Refuses a prefix that nothing can be written below, before anything is built for it.
refuse_closed() {
    pkcs12_there=$pkcs12_top
    while [ ! -e "$pkcs12_there" ] && [ ! -L "$pkcs12_there" ] && [ "${pkcs12_there%/*}" != "$pkcs12_there" ]; do
        pkcs12_there=${pkcs12_there%/*}
    done
    pkcs12_there=${pkcs12_there:-/}
    [ -d "$pkcs12_there" ] || not_installed "$pkcs12_there is no folder"
    [ -w "$pkcs12_there" ] && [ -x "$pkcs12_there" ] || not_installed "$pkcs12_there cannot be written"
}

# Makes the folder $1 below the prefix, and notes each that was not there.
make_folder() {
    [ ! -d "$pkcs12_top${1:+/$1}" ] || return 0
    case $1 in
        */*) make_folder "${1%/*}" ;;
        ?*) make_folder "" ;;
        '') mkdir -p -- "$(dirname -- "$pkcs12_top")" || not_installed "the folder of $pkcs12_top could not be made" ;;
    esac
    # first, since a signal may come when it was made
    pkcs12_new_folders="${1:-.}
$pkcs12_new_folders"
    # -p, since another run may make it at the same time
    mkdir -p -- "$pkcs12_top${1:+/$1}" || not_installed "the folder $pkcs12_top${1:+/$1} could not be made"
}

# Writes what the further words print beside its place $2 below the prefix, with the mode $1.
stage() {
    pkcs12_mode=$1
    pkcs12_target=$2
    shift 2
    make_folder "${pkcs12_target%/*}"
    pkcs12_staged="$pkcs12_staged $pkcs12_target"
    pkcs12_new=$pkcs12_top/$pkcs12_target.new-$$
    rm -f -- "$pkcs12_new"
    # -C, so that no link is followed that others have put there
    if ! (set -C && "$@" >"$pkcs12_new") || ! chmod "$pkcs12_mode" "$pkcs12_new"; then
        not_installed "$pkcs12_top/$pkcs12_target could not be written"
    fi
}
# Removes what was staged, and the folders that were made for it.
unstage() {
    [ -z "$pkcs12_made_library" ] || rm -rf -- "$pkcs12_made_library"
    for pkcs12_each in $pkcs12_staged; do rm -f -- "$pkcs12_top/$pkcs12_each.new-$$"; done
    remove_folders "$pkcs12_new_folders"
}
remove_folders() {
    echo "$1" | while IFS= read -r pkcs12_each; do
        case $pkcs12_each in
            '') ;;
            .) rmdir -- "$pkcs12_top" 2>/dev/null || : ;;
            *) rmdir -- "$pkcs12_top/$pkcs12_each" 2>/dev/null || : ;;
        esac
    done
}

# Why no build can run here, or nothing where one can.
no_build() {
    if ! command -v rt >/dev/null; then
        echo "rt of the Rattle kit is not there"
    elif [ ! -w "$wrapper_home/crates" ]; then
        echo "$wrapper_home cannot be written"
    fi
}
# Builds the program where it can be built here and is not of the sources as they are.
find_program() {
    pkcs12_why=$(no_build)
    if [ -z "$pkcs12_why" ] || [ ! -x "$pkcs12_program" ]; then
        build
        return 0
    fi
    find_newer "$pkcs12_program" "$wrapper_crate"
    [ -z "$wrapper_newer" ] ||
        warn "the program is older than ${wrapper_newer#"$wrapper_home/"}, and is installed as it is: it cannot be built here, since $pkcs12_why"
}
# The same for the archive of the library for C; or says why the library is not installed.
find_library() {
    pkcs12_archive=
    pkcs12_c=$wrapper_home/crates/pkcs12_c
    if [ -z "$(c_compiler)" ]; then
        warn "without the library for C: there is no ${CC:-cc}"
        return 0
    fi
    pkcs12_why=$(no_build)
    if [ -z "$pkcs12_why" ]; then
        build_library
    elif [ ! -f "$pkcs12_c/out/libpkcs12_c.a" ]; then
        warn "without the library for C: it is not built, and $pkcs12_why"
        return 0
    else
        find_newer "$pkcs12_c/out/libpkcs12_c.a" pkcs12_c
        [ -z "$wrapper_newer" ] ||
            warn "the library for C is older than ${wrapper_newer#"$wrapper_home/"}, and is installed as it is: it cannot be built here, since $pkcs12_why"
    fi
    pkcs12_archive=yes
}
# Leaves it linked in $pkcs12_made_library, where that is done.
make_library() {
    [ -n "$pkcs12_archive" ] || return 0
    pkcs12_made_library=$(mktemp -d 2>/dev/null || TMPDIR=/tmp mktemp -d) || pkcs12_made_library=
    if [ -z "$pkcs12_made_library" ]; then
        warn "without the library for C: a folder for temporary files could not be made"
    elif ! TMPDIR=$pkcs12_made_library "$pkcs12_c/link/make_library.sh" "$pkcs12_made_library"; then
        rm -rf -- "$pkcs12_made_library"
        pkcs12_made_library=
        warn "without the library for C: it could not be linked, as is said above"
    fi
}
stage_library() {
    [ -n "$pkcs12_made_library" ] || return 0
    stage 644 "$pkcs12_with_library" :
    stage 644 include/pkcs12.h cat "$pkcs12_c/include/pkcs12.h"
    stage 644 "$pkcs12_libdir_note" echo "$pkcs12_libdir"
    stage 644 "$pkcs12_libdir/libpkcs12.a" cat "$pkcs12_made_library/libpkcs12.a"
    stage 644 "$pkcs12_libdir/libpkcs12.so.1" cat "$pkcs12_made_library/libpkcs12.so.1"
    make_folder "$pkcs12_libdir/pkgconfig"
    # The prefix is as many folders up as the path of the file has.
    stage 644 "$pkcs12_libdir/pkgconfig/pkcs12.pc" sed -e "s|@UP@|$(echo "$pkcs12_libdir/pkgconfig" | sed 's|[^/][^/]*|..|g')|" \
        -e "s|@LIBDIR@|$pkcs12_libdir|" -e "s|@VERSION@|$(cat -- "$wrapper_home/VERSION")|" "$pkcs12_c/link/pkcs12.pc"
    pkcs12_staged="$pkcs12_staged $pkcs12_libdir/libpkcs12.so"
    ln -sfT libpkcs12.so.1 "$pkcs12_top/$pkcs12_libdir/libpkcs12.so.new-$$" ||
        not_installed "$pkcs12_top/$pkcs12_libdir/libpkcs12.so could not be made"
}

# Each file of the installation but the note of folders, from its source.
stage_files() {
    # The prefix stands in it for where bin is another folder's name, and is nothing where that has a character of sed or sh.
    pkcs12_word=$pkcs12_prefix
    case $pkcs12_word in
        *[!A-Za-z0-9/._+-]*) pkcs12_word= ;;
    esac
    stage 755 bin/pkcs12 sed "s|^pkcs12_installed=.*|pkcs12_installed=$pkcs12_word|" "$wrapper_home/wrapper/installed.sh"
    stage 755 lib/pkcs12/pkcs12 cat "$pkcs12_program"
    stage 644 lib/pkcs12/ask.sh cat "$wrapper_home/wrapper/ask.sh"
    stage 644 lib/pkcs12/terminal.sh cat "$wrapper_home/wrapper/terminal.sh"
    stage 644 lib/pkcs12/install.sh cat "$wrapper_home/wrapper/install.sh"
    stage 644 share/man/man1/pkcs12.1 sed -e '/^\.\\" Below here/,/^\.\\" Above here/d' -e 's|\\&\./pkcs12|pkcs12|g' -e 's|\./pkcs12|pkcs12|g' \
        "$wrapper_home/docs/pkcs12.1"
    stage 644 share/bash-completion/completions/pkcs12 cat "$wrapper_home/docs/pkcs12.bash"
    for pkcs12_each in README.md CHANGELOG.md LICENSE-APACHE LICENSE-MIT; do
        stage 644 "share/doc/pkcs12/$pkcs12_each" cat "$wrapper_home/$pkcs12_each"
    done
    stage_library
}
stage_all() {
    stage_files
    pkcs12_old_folders=
    [ ! -f "$pkcs12_top/$pkcs12_made" ] || pkcs12_old_folders=$(cat -- "$pkcs12_top/$pkcs12_made")
    stage 644 "$pkcs12_made" printf '%s' "$pkcs12_new_folders$pkcs12_old_folders
"
}

# Removes the files that an earlier run has left half done: those of these names whose process is no longer there.
remove_left() {
    for pkcs12_each in $pkcs12_made $pkcs12_files $(library_files); do
        for pkcs12_there in "$pkcs12_top/$pkcs12_each".new-*; do
            pkcs12_number=${pkcs12_there##*.new-}
            case $pkcs12_number in
                '' | *[!0-9]*) continue ;;
            esac
            [ -f "$pkcs12_there" ] || [ -L "$pkcs12_there" ] || continue
            kill -0 "$pkcs12_number" 2>/dev/null || rm -f -- "$pkcs12_there"
        done
    done
}

install() {
    open_output
    find_prefix "$@"
    refuse_packaged
    refuse_others "$pkcs12_made" "$pkcs12_files"
    refuse_closed
    # These have traps of their own.
    find_program
    find_library
    [ -z "$pkcs12_archive" ] || refuse_others "$pkcs12_with_library" "$(library_files)"
    remove_left
    umask 022
    pkcs12_staged=
    pkcs12_new_folders=
    pkcs12_made_library=
    trap unstage EXIT
    trap 'exit 129' HUP
    trap 'exit 130' INT
    trap 'exit 143' TERM
    make_library
    stage_all
    # From here on it is soon whole, and no signal stops it.
    trap '' HUP INT TERM
    for pkcs12_each in "$pkcs12_made" $pkcs12_staged; do
        [ ! -e "$pkcs12_top/$pkcs12_each.new-$$" ] || mv -fT -- "$pkcs12_top/$pkcs12_each.new-$$" "$pkcs12_top/$pkcs12_each"
    done
    trap - EXIT HUP INT TERM
    if [ -n "$pkcs12_made_library" ]; then
        rm -rf -- "$pkcs12_made_library"
    elif [ -f "$pkcs12_top/$pkcs12_with_library" ]; then
        warn "the library for C below $pkcs12_top is that of an earlier installation"
    fi
    tell "$wrapper_name is installed below $pkcs12_top; $pkcs12_top/bin/$wrapper_name uninstall removes it"
    case :$PATH: in
        *":$pkcs12_prefix/bin:"*) ;;
        *) tell "$pkcs12_prefix/bin is not among the folders of PATH" ;;
    esac
}

# Refuses to change the files of a package: dpkg knows the command below this prefix.
refuse_packaged() {
    command -v dpkg-query >/dev/null && [ -e "$pkcs12_top/bin/$wrapper_name" ] || return 0
    ! dpkg-query -S "$pkcs12_top/bin/$wrapper_name" >/dev/null 2>&1 ||
        wrong_use "$pkcs12_top/bin/$wrapper_name is of a package: apt remove removes it"
}

# Removes the file $1 below the prefix.
remove_file() {
    rm -f -- "$pkcs12_top/$1" && return 0
    printf '%s: BuildFailed (1): not uninstalled: %s could not be removed\n' "$wrapper_name" "$pkcs12_top/$1" >&2
    exit 1
}

uninstall() {
    find_prefix "$@"
    refuse_packaged
    [ -f "$pkcs12_top/$pkcs12_made" ] || wrong_use "$wrapper_name is not installed below $pkcs12_top"
    pkcs12_new_folders=$(cat -- "$pkcs12_top/$pkcs12_made")
    [ ! -f "$pkcs12_top/$pkcs12_libdir_note" ] || pkcs12_libdir=$(cat -- "$pkcs12_top/$pkcs12_libdir_note")
    remove_left
    pkcs12_library=
    [ ! -f "$pkcs12_top/$pkcs12_with_library" ] || pkcs12_library=$(library_files)
    # The command goes last, and what it removes itself by, so that it can be called again where something could not be removed; and the
    # note of what was made after it, by which ./$wrapper_name uninstall goes.
    for pkcs12_each in $pkcs12_library $pkcs12_files; do
        case $pkcs12_each in
            "bin/$wrapper_name" | "lib/$wrapper_name/install.sh") continue ;;
        esac
        remove_file "$pkcs12_each"
    done
    for pkcs12_each in "bin/$wrapper_name" "lib/$wrapper_name/install.sh" "$pkcs12_made"; do remove_file "$pkcs12_each"; done
    remove_folders "$pkcs12_new_folders"
    tell "$wrapper_name is no longer below $pkcs12_top"
}
