#!/bin/sh
# shellcheck disable=SC2154,SC2317 # the checks are called by name, and tests/shared/checks.sh sets names
# What ./pkcs12 install puts in place and what it refuses, that the installed command works without this tree, and that nothing is
# left of it after uninstall. It takes the built program, and proves nothing.
# Prints `ok NAME` or `not ok NAME` for each, `skipped NAME` with the reason for what this machine has no means for, and ends with 1
# where one is not ok.
set -eu

home=$(cd "$(dirname "$0")/.." && pwd)
work=$(mktemp -d)
trap 'rm -rf "$work"' EXIT
# shellcheck source=tests/shared/checks.sh
. "$home/tests/shared/checks.sh"
unset DESTDIR

# Runs a command, and compares its exit number with $1.
status() {
    due=$1
    shift
    code=0
    "$@" >"$work/said" 2>"$work/told" || code=$?
    [ "$code" -eq "$due" ] || {
        echo "$*: due is $due, found is $code" >&2
        return 1
    }
}
refused() {
    status "$@" && grep -q "^pkcs12: [A-Za-z]* ($1): " "$work/told"
}

# What a person expects of an installed command, below a prefix, and of the library for C where there is a compiler.
expected='bin/pkcs12 755
lib/pkcs12/ask.sh 644
lib/pkcs12/install.sh 644
lib/pkcs12/made 644
lib/pkcs12/pkcs12 755
lib/pkcs12/terminal.sh 644
share/bash-completion/completions/pkcs12 644
share/doc/pkcs12/CHANGELOG.md 644
share/doc/pkcs12/LICENSE-APACHE 644
share/doc/pkcs12/LICENSE-MIT 644
share/doc/pkcs12/README.md 644
share/man/man1/pkcs12.1 644'
if [ -f "$home/crates/pkcs12_c/out/libpkcs12_c.a" ] && command -v "${CC:-cc}" >/dev/null; then
    expected=$(printf '%s\n' "$expected" 'include/pkcs12.h 644' 'lib/libpkcs12.a 644' 'lib/libpkcs12.so 777' 'lib/libpkcs12.so.1 644' \
        'lib/pkgconfig/pkcs12.pc 644' 'lib/pkcs12/libdir 644' 'lib/pkcs12/with-library 644' | sort)
else
    # no proof and no build for this test
    CC=/nowhere/cc
    export CC
    echo "skipped the library for C: it is not built, or there is no compiler"
fi
files_and_modes() {
    (cd "$1" && find . '(' -type f -o -type l ')' -exec stat -c '%n %a' {} + | sed 's|^\./||' | sort)
}

# Puts what is installed of the tree into the folder $1, beside the program.
copy_tree() {
    mkdir -p "$1/crates/pkcs12/out" && cp -r "$home/pkcs12" "$home/wrapper" "$home/docs" "$home/README.md" "$home/CHANGELOG.md" \
        "$home/LICENSE-APACHE" "$home/LICENSE-MIT" "$home/VERSION" "$1" && cp "$home/crates/pkcs12/out/pkcs12" "$1/crates/pkcs12/out"
}
# Notes that the program below the folder $1 was built of the sources there, with the kit in the folder $2.
# shellcheck disable=SC2034
built_of_sources() {
    (
        PATH=$2/bin:$PATH wrapper_name=install wrapper_home=$1 wrapper_crate=pkcs12
        . "$1/wrapper/build.sh"
        find_kit
        find_sums "$(crates_below pkcs12)"
        sum_of_built "$wrapper_program" pkcs12 >"$wrapper_program.sum"
    )
}

# --- what is installed ---

in_place() {
    (umask 077 && status 0 "$home/pkcs12" install "$work/prefix") && [ "$(files_and_modes "$work/prefix")" = "$expected" ] &&
        [ -z "$(find "$work/prefix" -type d ! -perm 755)" ]
}
holds install_puts_its_files_in_place in_place
checks_a_store() {
    status 0 "$@" check "$plain" --password-file "$plain_password" && grep -qx 'certificates: 2' "$work/said" && [ ! -s "$work/told" ]
}
works_from_anywhere() {
    ln -s "$work/prefix/bin/pkcs12" "$work/link"
    (cd / && checks_a_store "$work/prefix/bin/pkcs12") && checks_a_store env "PATH=$work/prefix/bin:/usr/bin:/bin" pkcs12 &&
        checks_a_store "$work/link" && (cd "$work/prefix/bin" && checks_a_store sh pkcs12) &&
        mkdir -p "$work/moved" && cp -r "$work/prefix" "$work/moved/a prefix" && checks_a_store "$work/moved/a prefix/bin/pkcs12"
}
holds the_installed_command_works_from_anywhere works_from_anywhere
installed_asks() {
    "$home/tests/shared/at_terminal.py" --answer "$(cat "$plain_password")" -- "$work/prefix/bin/pkcs12" check "$plain" >"$work/told" &&
        grep -q '^certificates: 2' "$work/told" && grep -q 'echo off while asking, on afterwards$' "$work/told"
}
holds the_installed_command_asks installed_asks
# No path of this tree and no call of rt: what is installed stands alone.
stands_alone() {
    ! grep -rlF "$home" "$work/prefix" && ! grep -wE 'rt (all|run|check)' "$work/prefix/bin/pkcs12" "$work/prefix/lib/pkcs12/ask.sh" "$work/prefix/lib/pkcs12/terminal.sh"
}
holds the_installed_command_knows_no_tree stands_alone
installed_pages() {
    ! grep -qE '\./pkcs12|pkcs12 (build|install)|BUILDING' "$work/prefix/share/man/man1/pkcs12.1" || return 1
    command -v man >/dev/null || {
        echo "skipped $name: there is no man"
        return 0
    }
    MANPATH=$work/prefix/share/man man pkcs12 2>/dev/null | grep -q 'pkcs12 export STORE'
}
holds the_man_page_names_the_installed_command installed_pages
installed_completion() {
    command -v bash >/dev/null || {
        echo "skipped $name: there is no bash"
        return 0
    }
    bash -c '. "$1"; COMP_WORDS=(pkcs12 che); COMP_CWORD=1; _pkcs12; [ "${COMPREPLY[*]}" = check ]' bash \
        "$work/prefix/share/bash-completion/completions/pkcs12"
}
holds the_completion_is_installed installed_completion
# The least of many runs, since the machine may be busy: the wrapper, and the program by itself.
adds_ten_milliseconds() {
    "${PYTHON:-python3}" - "$work/prefix" <<'END'
import subprocess
import sys
import time

prefix = sys.argv[1]


def least(command):
    times = []
    for _ in range(60):
        start = time.perf_counter()
        subprocess.run([command, "--version"], stdin=subprocess.DEVNULL, stdout=subprocess.DEVNULL, check=True)
        times.append(time.perf_counter() - start)
    return min(times)


wrapper, program = least(f"{prefix}/bin/pkcs12"), least(f"{prefix}/lib/pkcs12/pkcs12")
print(f"wrapper {1000 * wrapper:.1f} ms, program {1000 * program:.1f} ms")
sys.exit(0 if wrapper - program < 0.010 else 1)
END
}
holds the_wrapper_adds_less_than_10_milliseconds adds_ten_milliseconds

# By the flags that pkg-config gives, a caller of the tree is compiled and run.
installed_library() {
    [ -f "$work/prefix/lib/libpkcs12.a" ] && command -v pkg-config >/dev/null || {
        echo "skipped $name: no library was installed, or there is no pkg-config"
        return 0
    }
    flags=$(PKG_CONFIG_PATH=$work/prefix/lib/pkgconfig pkg-config --cflags --libs pkcs12)
    # shellcheck disable=SC2086
    "${CC:-cc}" -Wall "$home/crates/pkcs12_c/examples/c/calls.c" -o "$work/caller" $flags &&
        LD_LIBRARY_PATH=$work/prefix/lib "$work/caller" transfer "$plain" "$plain_password" "$work/new" >"$work/said" &&
        [ "$(grep -c '^-----BEGIN CERTIFICATE-----$' "$work/said")" -eq 2 ]
}
holds the_library_is_found_by_pkg_config installed_library

# Where the archive is not built, the crates below it are proved, and then it is. This compiler does that for the crate `low` alone.
library_is_built() {
    mkdir -p "$work/unbuilt/crates/pkcs12_c/src" "$work/unbuilt/crates/low/src" "$work/unbuilt/bin"
    copy_tree "$work/unbuilt" && printf 'low:\npkcs12_c staticlib: low\npkcs12: low\n' >"$work/unbuilt/crates.txt" || return 1
    printf '#!/bin/sh\necho "%s/page"\n' "$work/unbuilt" >"$work/unbuilt/bin/rt"
    # shellcheck disable=SC2016
    printf '#!/bin/sh\necho "${PWD##*/} $*" >>"%s/calls"\n[ "${PWD##*/}" = low ] && mkdir out/rlib/statements/low.rlib\n' "$work/unbuilt" \
        >"$work/unbuilt/bin/rattle" && chmod 755 "$work/unbuilt/bin/rt" "$work/unbuilt/bin/rattle"
    built_of_sources "$work/unbuilt" "$work/unbuilt" || return 1
    refused 1 env "PATH=$work/unbuilt/bin:$PATH" CC=sh "$work/unbuilt/pkcs12" install "$work/unbuilt/prefix" &&
        head -n 1 "$work/unbuilt/calls" | grep -q '^low build --statements ' &&
        tail -n 1 "$work/unbuilt/calls" | grep -q '^pkcs12_c build --crate-type staticlib ' && [ "$(wc -l <"$work/unbuilt/calls")" -eq 2 ] &&
        [ ! -e "$work/unbuilt/prefix" ] && [ -s "$work/unbuilt/crates/low/out/rlib/statements/sum" ]
}
holds the_library_is_built_where_it_is_not library_is_built
# Nothing is left of a build of the library that a signal ends.
signal_while_building_the_library() {
    rm -rf "$work/unbuilt/crates/low/out"
    # shellcheck disable=SC2016
    printf '#!/bin/sh\necho $$ >"%s/number"\nexec sleep 600\n' "$work/unbuilt" >"$work/unbuilt/bin/rattle"
    PATH=$work/unbuilt/bin:$PATH CC=sh "$work/unbuilt/pkcs12" install "$work/unbuilt/prefix" >"$work/said" 2>"$work/told" &
    started=$!
    while [ ! -s "$work/unbuilt/number" ] && kill -0 "$started" 2>/dev/null; do sleep 0.01; done
    kill "$started"
    code=0
    wait "$started" || code=$?
    [ "$code" -eq 143 ] && [ ! -e "$work/unbuilt/prefix" ] && [ "$(ls "$work/unbuilt/crates/pkcs12_c/out")" = build.log ] &&
        [ ! -e "$work/unbuilt/crates/low/out/rlib/statements" ] && ! grep -qs sleep "/proc/$(cat "$work/unbuilt/number")/cmdline"
}
holds a_signal_ends_the_build_of_the_library signal_while_building_the_library

# --- again, and elsewhere ---

again() {
    "$work/prefix/bin/pkcs12" self-test >"$work/running" &
    running=$!
    status 0 "$home/pkcs12" install "$work/prefix" && wait "$running" && [ "$(files_and_modes "$work/prefix")" = "$expected" ]
}
holds install_again_over_a_running_command again
two_at_once() {
    for each in 1 2 3; do
        "$home/pkcs12" install "$work/at-once" >"$work/running" 2>&1 &
        running=$!
        status 0 "$home/pkcs12" install "$work/at-once" && wait "$running" && [ "$(files_and_modes "$work/at-once")" = "$expected" ] &&
            status 0 "$home/pkcs12" uninstall "$work/at-once" && [ -z "$(find "$work/at-once" -type f 2>/dev/null)" ] &&
            rm -rf "$work/at-once" || return 1
    done
}
holds two_installations_at_once two_at_once
for_packagers() {
    status 0 env "DESTDIR=$work/stage" "$home/pkcs12" install /usr && [ "$(files_and_modes "$work/stage/usr")" = "$expected" ] &&
        checks_a_store "$work/stage/usr/bin/pkcs12" && ! grep -rlF "$work" "$work/stage" &&
        status 0 env "DESTDIR=$work/stage" "$home/pkcs12" uninstall /usr && nothing_at "$work/stage/usr"
}
holds DESTDIR_for_packagers for_packagers
# The installed command removes itself, wherever packages are made.
installed_uninstall_with_destdir() {
    status 0 "$home/pkcs12" install "$work/with-destdir" && status 0 env "DESTDIR=$work/stage" "$work/with-destdir/bin/pkcs12" uninstall &&
        nothing_at "$work/with-destdir"
}
holds the_installed_command_takes_no_DESTDIR installed_uninstall_with_destdir
relative_folders() {
    mkdir -p "$work/relative" && (
        cd "$work/relative" && status 0 env DESTDIR=stage "$home/pkcs12" install /usr && [ "$(files_and_modes stage/usr)" = "$expected" ] &&
            status 0 env DESTDIR=stage "$home/pkcs12" uninstall /usr && nothing_at stage/usr &&
            status 0 env "PATH=$work/relative/own/bin:$PATH" "$home/pkcs12" install own/ &&
            [ "$(cat "$work/said")" = "pkcs12 is installed below $work/relative/own; $work/relative/own/bin/pkcs12 uninstall removes it" ] &&
            status 0 own/bin/pkcs12 uninstall && nothing_at own
    )
}
holds folders_that_are_relative relative_folders
# Where the folder that a path begins from was removed, nothing goes to the root in its place.
removed_folder() {
    mkdir "$work/removed"
    (cd "$work/removed" && rmdir "$work/removed" && refused 2 "$home/pkcs12" install relative-prefix) && [ ! -e /relative-prefix ] &&
        mkdir "$work/removed" &&
        (cd "$work/removed" && rmdir "$work/removed" && refused 2 env DESTDIR=relative-stage "$home/pkcs12" install /usr) &&
        [ ! -e /relative-stage ]
}
holds a_folder_that_was_removed removed_folder
without_a_prefix() {
    status 0 env "HOME=$work/a home" "$home/pkcs12" install && [ "$(files_and_modes "$work/a home/.local")" = "$expected" ] &&
        status 0 env "HOME=$work/a home" "$home/pkcs12" uninstall && nothing_at "$work/a home/.local" &&
        refused 2 env -u HOME "$home/pkcs12" install
}
holds the_prefix_is_local_of_the_home without_a_prefix
odd_prefixes() {
    mkdir -p "$work/odd"
    # shellcheck disable=SC2016
    for prefix in 'with spaces' "$(printf 'two\nlines')" './-dash/' 'a*b' '$HOME'; do
        (cd "$work/odd" && status 0 "$home/pkcs12" install "$prefix") && checks_a_store "$work/odd/$prefix/bin/pkcs12" &&
            (cd "$work/odd" && status 0 "$home/pkcs12" uninstall "$prefix") && [ -z "$(ls -A "$work/odd")" ] || return 1
    done
}
holds odd_prefixes odd_prefixes
wrong_use_is_told() {
    for words in 'install one two' 'install --help' 'install -x' 'uninstall --prefix=/usr' 'build more'; do
        # shellcheck disable=SC2086
        (cd "$work/odd" && refused 2 "$home/pkcs12" $words) || return 1
    done
    refused 2 "$home/pkcs12" install '' && refused 2 "$home/pkcs12" uninstall "$work/nowhere" && [ -z "$(ls -A "$work/odd")" ]
}
holds wrong_use_is_told wrong_use_is_told

# --- what is refused, and leaves nothing ---

others_file() {
    mkdir -p "$work/others/bin" && echo 'another command' >"$work/others/bin/pkcs12"
    refused 1 "$home/pkcs12" install "$work/others" && [ "$(find "$work/others" -type f)" = "$work/others/bin/pkcs12" ] &&
        grep -qx 'another command' "$work/others/bin/pkcs12" && [ "$(ls "$work/others")" = bin ] &&
        refused 2 "$home/pkcs12" uninstall "$work/others" && [ -e "$work/others/bin/pkcs12" ]
}
holds a_file_of_others_is_kept others_file
# An installation without the library for C is no reason to take the header of others for its own.
others_library() {
    status 0 env CC=/nowhere/cc "$home/pkcs12" install "$work/header" && mkdir -p "$work/header/include" &&
        echo 'of others' >"$work/header/include/pkcs12.h" || return 1
    if [ "${CC-}" != /nowhere/cc ]; then
        refused 1 "$home/pkcs12" install "$work/header" && grep -qF "$work/header/include/pkcs12.h is there" "$work/told" || return 1
    fi
    status 0 env CC=/nowhere/cc "$home/pkcs12" install "$work/header" && status 0 "$home/pkcs12" uninstall "$work/header" &&
        [ "$(find "$work/header" -type f)" = "$work/header/include/pkcs12.h" ] && grep -qx 'of others' "$work/header/include/pkcs12.h"
}
holds a_header_of_others_is_kept others_library
# Links under the names that files have until they are whole: their process number is that of the shell here.
planted_links() {
    mkdir -p "$work/planted/bin" "$work/planted/lib" && echo precious >"$work/precious" || return 1
    # shellcheck disable=SC2016
    status 0 sh -c 'for each in bin/pkcs12 lib/libpkcs12.so lib/libpkcs12.a; do ln -s "$1/precious" "$1/planted/$each.new-$$" || exit 9; done
        exec "$2" install "$1/planted"' sh "$work" "$home/pkcs12" && [ "$(files_and_modes "$work/planted" | grep -v "\.new-")" = "$expected" ] &&
        grep -qx precious "$work/precious" && checks_a_store "$work/planted/bin/pkcs12" && status 0 "$home/pkcs12" uninstall "$work/planted"
}
holds links_that_others_planted planted_links
no_temporary_folder() {
    [ "${CC-}" != /nowhere/cc ] || {
        echo "skipped $name: the library for C is not built, or there is no compiler"
        return 0
    }
    status 0 env TMPDIR=/nowhere "$home/pkcs12" install "$work/untemporary" && [ "$(files_and_modes "$work/untemporary")" = "$expected" ] &&
        status 0 "$work/untemporary/bin/pkcs12" uninstall && nothing_at "$work/untemporary"
}
holds no_folder_for_temporary_files no_temporary_folder
folder_in_the_way() {
    mkdir -p "$work/way/lib/pkcs12/pkcs12"
    refused 1 "$home/pkcs12" install "$work/way" && [ "$(ls "$work/way")" = lib ]
}
holds a_folder_in_the_way_is_told folder_in_the_way
not_writable() {
    mkdir -p "$work/closed" && echo >"$work/file"
    refused 1 "$home/pkcs12" install "$work/file/prefix" || return 1
    [ "$(id -u)" -eq 0 ] && command -v setpriv >/dev/null || {
        echo "skipped $name: only root can run as another user"
        return 0
    }
    # a copy, since the tree may be in a folder that others cannot enter
    cp "$home/crates.txt" "$work" && mkdir -p "$work/copy" && mv "$work/crates.txt" "$work/copy" && copy_tree "$work/copy" && chmod 755 "$work"
    refused 1 setpriv --reuid=65534 --regid=65534 --clear-groups "$work/copy/pkcs12" install "$work/closed" &&
        [ -z "$(ls -A "$work/closed")" ] && grep -qF "$work/closed cannot be written" "$work/told" && ! grep -q 'building' "$work/told"
}
holds a_prefix_that_is_not_writable not_writable
# Of another user: what is built there is installed, and nothing else is built.
closed_tree() {
    [ -d "$work/copy" ] || {
        echo "skipped $name: only root can run as another user"
        return 0
    }
    mkdir "$work/theirs" && chown 65534:65534 "$work/theirs"
    status 0 setpriv --reuid=65534 --regid=65534 --clear-groups "$work/copy/pkcs12" install "$work/theirs/prefix" &&
        grep -q '^without the library for C: ' "$work/told" && checks_a_store "$work/theirs/prefix/bin/pkcs12" || return 1
    rm "$work/copy/crates/pkcs12/out/pkcs12"
    refused 1 setpriv --reuid=65534 --regid=65534 --clear-groups "$work/copy/pkcs12" install "$work/theirs/another" &&
        [ "$(ls "$work/theirs")" = prefix ] && [ "$(wc -l <"$work/told")" -eq 1 ]
}
holds a_tree_that_is_not_writable closed_tree
# Where the library is not built yet, it is built, here by a compiler that hands out the archive that is there, and installed.
library_built() {
    [ "$expected" != "${expected#*libpkcs12.a}" ] || {
        echo "skipped $name: the library is not built"
        return 0
    }
    mkdir -p "$work/fresh/crates/pkcs12_c" "$work/kit/bin" && copy_tree "$work/fresh" &&
        printf 'pkcs12:\npkcs12_c staticlib:\n' >"$work/fresh/crates.txt" &&
        cp -r "$home/crates/pkcs12_c/include" "$home/crates/pkcs12_c/link" "$work/fresh/crates/pkcs12_c" &&
        printf '#!/bin/sh\necho "%s/page"\n' "$work/kit" >"$work/kit/bin/rt" &&
        printf '#!/bin/sh\necho "${PWD##*/} $1" >>"%s"\nwhile [ "$1" != -o ]; do shift; done\ncp "%s" "$2"\n' \
            "$work/calls" "$home/crates/pkcs12_c/out/libpkcs12_c.a" >"$work/kit/bin/rattle" && chmod +x "$work/kit/bin"/* &&
        built_of_sources "$work/fresh" "$work/kit" || return 1
    status 0 env "PATH=$work/kit/bin:$PATH" "$work/fresh/pkcs12" install "$work/of fresh" &&
        [ "$(cat "$work/calls")" = 'pkcs12_c build' ] && [ "$(files_and_modes "$work/of fresh")" = "$expected" ] &&
        status 0 "$work/fresh/pkcs12" uninstall "$work/of fresh" && nothing_at "$work/of fresh" || return 1
    # and a build that fails leaves nothing
    rm "$work/fresh/crates/pkcs12_c/out/libpkcs12_c.a" && printf '#!/bin/sh\necho no proof\nexit 1\n' >"$work/kit/bin/rattle" &&
        refused 1 env "PATH=$work/kit/bin:$PATH" "$work/fresh/pkcs12" install "$work/of fresh" && grep -q 'no proof' "$work/told" &&
        nothing_at "$work/of fresh"
}
holds the_library_is_built_and_installed library_built
full_disk() {
    mkdir -p "$work/full" && mount -t tmpfs -o size=200k none "$work/full" 2>/dev/null || {
        echo "skipped $name: no file system can be mounted here"
        return 0
    }
    mkdir "$work/full/prefix"
    full=0
    refused 1 "$home/pkcs12" install "$work/full/prefix" && [ -z "$(ls -A "$work/full/prefix")" ] || full=1
    umount "$work/full"
    return "$full"
}
holds a_full_disk_leaves_nothing full_disk
# At several times after its start.
signal_while_installing() {
    for delay in 0.01 0.03 0.05 0.07 0.09 0.11 0.15; do
        code=0
        timeout -s TERM "$delay" "$home/pkcs12" install "$work/cut" >"$work/said" 2>"$work/told" || code=$?
        if [ "$code" -eq 0 ]; then
            status 0 "$home/pkcs12" uninstall "$work/cut" || return 1
        fi
        tries=0
        until [ -z "$(find "$work/cut" -name '*.new-*' 2>/dev/null)" ]; do
            tries=$((tries + 1))
            [ "$tries" -lt 100 ] || return 1
            sleep 0.05
        done
        status 0 "$home/pkcs12" install "$work/cut" && checks_a_store "$work/cut/bin/pkcs12" &&
            status 0 "$home/pkcs12" uninstall "$work/cut" && nothing_at "$work/cut" || return 1
    done
}
holds a_signal_leaves_nothing_half_done signal_while_installing

# --- uninstall ---

nothing_is_left() {
    echo mine >"$work/prefix/share/mine"
    status 0 "$home/pkcs12" uninstall "$work/prefix" && [ "$(find "$work/prefix" -type f)" = "$work/prefix/share/mine" ] &&
        [ "$(ls "$work/prefix")" = share ]
}
holds uninstall_leaves_what_is_of_others nothing_is_left
made_before() {
    mkdir -p "$work/before/bin"
    status 0 "$home/pkcs12" install "$work/before" && status 0 "$home/pkcs12" install "$work/before" &&
        status 0 "$home/pkcs12" uninstall "$work/before" &&
        [ "$(find "$work/before" | sort)" = "$(printf '%s\n%s' "$work/before" "$work/before/bin")" ]
}
holds uninstall_keeps_folders_that_were_there made_before
uninstalls_itself() {
    status 0 "$home/pkcs12" install "$work/itself" && refused 2 "$work/itself/bin/pkcs12" uninstall more &&
        status 0 env -u HOME "$work/itself/bin/pkcs12" uninstall && nothing_at "$work/itself"
}
holds the_installed_command_uninstalls_itself uninstalls_itself
# Where bin is a link to a folder elsewhere.
linked_bin() {
    mkdir -p "$work/linked" "$work/elsewhere" && ln -s ../elsewhere "$work/linked/bin" &&
        status 0 "$home/pkcs12" install "$work/linked" && checks_a_store "$work/linked/bin/pkcs12" &&
        checks_a_store env "PATH=$work/linked/bin:/usr/bin:/bin" pkcs12 && (cd "$work/linked" && checks_a_store bin/pkcs12) &&
        (cd "$work/linked/bin" && checks_a_store ./pkcs12) &&
        ln -s "$work/linked/bin/pkcs12" "$work/further" && ln -s further "$work/furthest" && checks_a_store "$work/furthest" &&
        (cd "$work" && checks_a_store ./furthest) &&
        status 0 "$work/linked/bin/pkcs12" uninstall && [ -z "$(ls -A "$work/elsewhere")" ]
}
holds a_bin_that_is_a_link linked_bin
# What cannot be removed is told, and the command is there to try again.
not_removed() {
    status 0 "$home/pkcs12" install "$work/kept" && rm "$work/kept/share/man/man1/pkcs12.1" && mkdir "$work/kept/share/man/man1/pkcs12.1" || return 1
    # bin is a link here, too
    mv "$work/kept/bin" "$work/kept-bin" && ln -s ../kept-bin "$work/kept/bin" || return 1
    refused 1 "$work/kept/bin/pkcs12" uninstall && grep -q '^pkcs12: BuildFailed (1): not uninstalled: .*/pkcs12.1 could not be removed$' "$work/told" &&
        [ -x "$work/kept/bin/pkcs12" ] && rmdir "$work/kept/share/man/man1/pkcs12.1" && status 0 "$work/kept/bin/pkcs12" uninstall &&
        [ "$(ls -A "$work/kept")" = bin ] && [ -z "$(ls -A "$work/kept-bin")" ]
}
holds what_is_not_removed_is_told not_removed
# A compiler of C that does not work: the rest is installed.
without_linking() {
    [ "$expected" != "${expected#*libpkcs12.a}" ] || {
        echo "skipped $name: the library is not built"
        return 0
    }
    status 0 env CC=false "$home/pkcs12" install "$work/unlinked" && grep -q '^without the library for C: ' "$work/told" &&
        checks_a_store "$work/unlinked/bin/pkcs12" && [ ! -e "$work/unlinked/include" ] &&
        status 0 "$work/unlinked/bin/pkcs12" uninstall && nothing_at "$work/unlinked"
}
holds a_library_that_is_not_linked_is_told without_linking
# A program and an archive that are older than the sources are built anew, and told where they cannot be.
stale() {
    [ "$expected" != "${expected#*libpkcs12.a}" ] || {
        echo "skipped $name: the library is not built"
        return 0
    }
    mkdir -p "$work/stale/crates/low/src" "$work/stale/crates/pkcs12_c/out" "$work/stale/kit/bin" && copy_tree "$work/stale" &&
        cp -r "$home/crates/pkcs12_c/include" "$home/crates/pkcs12_c/link" "$work/stale/crates/pkcs12_c" &&
        cp "$home/crates/pkcs12_c/out/libpkcs12_c.a" "$work/stale/crates/pkcs12_c/out" &&
        printf 'low:\npkcs12: low\npkcs12_c staticlib: low\n' >"$work/stale/crates.txt" || return 1
    printf '#!/bin/sh\necho "%s/page"\n' "$work/stale/kit" >"$work/stale/kit/bin/rt"
    # shellcheck disable=SC2016
    printf '#!/bin/sh\necho "${PWD##*/}" >>"%s/calls"\nwhile [ "$1" != -o ]; do shift; done\ncase $2 in\n*.rlib) mkdir "$2" ;;\n*.a.new) cp "%s" "$2" ;;\n*) cp "%s" "$2" ;;\nesac\n' \
        "$work/stale" "$home/crates/pkcs12_c/out/libpkcs12_c.a" "$home/crates/pkcs12/out/pkcs12" >"$work/stale/kit/bin/rattle"
    # shellcheck disable=SC2016
    printf '#!/bin/sh\nwhile [ "$1" != -o ]; do shift; done\ncp "$3" "$2" && chmod +x "$2"\n' >"$work/stale/kit/bin/rattle-link"
    chmod +x "$work/stale/kit/bin"/* && sleep 0.01 && echo >"$work/stale/crates/low/src/lib.rt" || return 1
    status 0 env "PATH=$work/stale/kit/bin:$PATH" "$work/stale/pkcs12" install "$work/stale/prefix" &&
        [ "$(tr '\n' ' ' <"$work/stale/calls")" = 'low pkcs12 pkcs12_c ' ] || return 1
    status 0 env "PATH=$work/stale/kit/bin:$PATH" "$work/stale/pkcs12" install "$work/stale/prefix" && [ "$(wc -l <"$work/stale/calls")" -eq 3 ] &&
        sleep 0.01 && echo changed >"$work/stale/crates/low/src/lib.rt" &&
        status 0 env "PATH=/usr/bin:/bin" "$work/stale/pkcs12" install "$work/stale/prefix" &&
        grep -q '^the program is older than crates/low/src/lib.rt, and is installed as it is' "$work/told" &&
        grep -q '^the library for C is older than crates/low/src/lib.rt, and is installed as it is' "$work/told"
}
holds what_is_older_than_the_sources_is_built_anew stale
# A library that lacks a call of the header is not installed.
library_that_lacks_a_call() {
    [ "$expected" != "${expected#*libpkcs12.a}" ] && command -v nm >/dev/null || {
        echo "skipped $name: the library is not built, or there is no nm"
        return 0
    }
    mkdir -p "$work/lacking/crate/out" "$work/lacking/made" && cp -r "$home/crates/pkcs12_c/include" "$home/crates/pkcs12_c/link" "$work/lacking/crate" &&
        cp "$home/crates/pkcs12_c/out/libpkcs12_c.a" "$work/lacking/crate/out" &&
        echo 'uint32_t pkcs12_not_there(void);' >>"$work/lacking/crate/include/pkcs12.h" || return 1
    ! "$work/lacking/crate/link/make_library.sh" "$work/lacking/made" >"$work/said" 2>"$work/told" &&
        grep -q 'lacks pkcs12_not_there of pkcs12.h' "$work/told" && [ -z "$(ls -A "$work/lacking/made")" ]
}
holds a_library_that_lacks_a_call_is_refused library_that_lacks_a_call
other_folder_of_libraries() {
    status 0 "$home/pkcs12" install --libdir lib/x86_64-linux-gnu "$work/multiarch" || return 1
    if [ "$expected" != "${expected#*libpkcs12.a}" ]; then
        [ -f "$work/multiarch/lib/x86_64-linux-gnu/libpkcs12.so.1" ] && [ ! -e "$work/multiarch/lib/libpkcs12.a" ] || return 1
        if command -v pkg-config >/dev/null; then
            export PKG_CONFIG_PATH="$work/multiarch/lib/x86_64-linux-gnu/pkgconfig"
            [ "$(pkg-config --modversion pkcs12)" = "$(cat "$home/VERSION")" ] &&
                [ "$(cd "$(pkg-config --variable=libdir pkcs12)" && pwd)" = "$work/multiarch/lib/x86_64-linux-gnu" ] &&
                [ -f "$(pkg-config --variable=includedir pkcs12)/pkcs12.h" ] || return 1
            unset PKG_CONFIG_PATH
        fi
    fi
    status 0 "$work/multiarch/bin/pkcs12" uninstall && nothing_at "$work/multiarch" &&
        refused 2 "$home/pkcs12" install --libdir ../lib "$work/multiarch" && refused 2 "$home/pkcs12" install --libdir /lib "$work/multiarch" &&
        refused 2 "$home/pkcs12" install --libdir
}
holds libraries_in_another_folder other_folder_of_libraries
# Of a package: dpkg knows the command.
packaged() {
    mkdir -p "$work/packaged" && status 0 "$home/pkcs12" install "$work/package" || return 1
    # shellcheck disable=SC2016
    printf '#!/bin/sh\n[ "$2" = "%s/package/bin/pkcs12" ]\n' "$work" >"$work/packaged/dpkg-query" && chmod +x "$work/packaged/dpkg-query"
    refused 2 env "PATH=$work/packaged:$PATH" "$work/package/bin/pkcs12" uninstall && grep -q 'is of a package' "$work/told" &&
        refused 2 env "PATH=$work/packaged:$PATH" "$home/pkcs12" install "$work/package" &&
        [ "$(files_and_modes "$work/package")" = "$expected" ] && status 0 "$work/package/bin/pkcs12" uninstall
}
holds what_a_package_has_is_left packaged
closed_outputs() {
    for way in '>&-' '2>&-' '>/dev/full' '2>/dev/full' '>&- 2>&-'; do
        sh -c "exec \"\$1\" install \"\$2\" $way" sh "$home/pkcs12" "$work/silent" && [ "$(files_and_modes "$work/silent")" = "$expected" ] &&
            sh -c "exec \"\$1\" uninstall $way" sh "$work/silent/bin/pkcs12" && nothing_at "$work/silent" || {
            echo "with $way" >&2
            return 1
        }
    done
}
holds outputs_that_are_closed_or_full closed_outputs
# What a killed run has left goes with the next.
killed_install() {
    status 0 "$home/pkcs12" install "$work/killed" && : >"$work/killed/bin/pkcs12.new-999999999" &&
        : >"$work/killed/lib/pkcs12/pkcs12.new-999999999" && status 0 "$home/pkcs12" install "$work/killed" &&
        [ "$(files_and_modes "$work/killed")" = "$expected" ] && : >"$work/killed/lib/pkcs12/ask.sh.new-999999999" &&
        status 0 "$work/killed/bin/pkcs12" uninstall && nothing_at "$work/killed"
}
holds what_a_killed_run_left_is_removed killed_install
# bin is a link, and the folder that it leads to is on PATH.
linked_bin_on_path() {
    mkdir -p "$work/linked-home/.local" "$work/linked-home/bin" && ln -s ../bin "$work/linked-home/.local/bin" &&
        status 0 "$home/pkcs12" install "$work/linked-home/.local" &&
        checks_a_store env "PATH=$work/linked-home/bin:/usr/bin:/bin" pkcs12 && status 0 "$work/linked-home/bin/pkcs12" uninstall &&
        [ -z "$(ls -A "$work/linked-home/bin")" ] && [ "$(ls -A "$work/linked-home/.local")" = bin ]
}
holds a_bin_that_is_a_link_and_on_the_path linked_bin_on_path

exit "$failed"
