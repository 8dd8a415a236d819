#!/bin/sh
# shellcheck disable=SC2154,SC2317 # the checks are called by name, and tests/shared/checks.sh sets names
# What ./pkcs12 package makes: a Debian package, which is installed below another root and removed again, and a tarball of the sources. It
# takes the built programs and the library, and proves nothing.
# Prints `ok NAME` or `not ok NAME` for each, `skipped NAME` with the reason for what this machine has no means for, and ends with 1
# where one is not ok.
set -eu

home=$(cd "$(dirname "$0")/.." && pwd)
work=$(mktemp -d)
trap 'rm -rf "$work"' EXIT
# shellcheck source=tests/shared/checks.sh
. "$home/tests/shared/checks.sh"
unset DESTDIR

for each in dpkg dpkg-deb dpkg-shlibdeps dpkg-architecture git; do
    command -v "$each" >/dev/null || {
        echo "skipped package: there is no $each"
        exit "$failed"
    }
done
[ "$(git -C "$home" status --porcelain 2>/dev/null || echo none)" = '' ] || {
    echo "skipped package: $home is no clone, or has changes that are not committed"
    exit "$failed"
}
if [ ! -f "$home/crates/pkcs12_c/out/libpkcs12_c.a" ] || ! command -v "${CC:-cc}" >/dev/null; then
    # no proof and no build for this test
    CC=/nowhere/cc
    export CC
    echo "skipped the library for C: it is not built, or there is no compiler"
fi

# The refusal of ./pkcs12 package with the further words has the text $1 in it.
refused() {
    text_due=$1
    shift
    code=0
    "$home/pkcs12" package "$@" >"$work/said" 2>"$work/told" || code=$?
    [ "$code" -ne 0 ] && [ ! -s "$work/said" ] && grep -q '^pkcs12: [A-Za-z]* ([12]): ' "$work/told" && grep -qF -- "$text_due" "$work/told"
}

# It prints the paths of what it has made.
made() {
    mkdir "$1"
    "$home/pkcs12" package "$1" >"$work/said" 2>"$work/told" && deb=$(sed -n 1p "$work/said") && tarball=$(sed -n 2p "$work/said") &&
        [ "$(find "$1" -type f | sort)" = "$(printf '%s\n' "$tarball" "$deb" | sort)" ]
}
holds a_package_and_a_tarball made "$work/first"
first_deb=$deb
first_tarball=$tarball
the_same_twice() {
    made "$work/second" && cmp "$first_deb" "$deb" && cmp "$first_tarball" "$tarball"
}
holds a_commit_gives_the_same_octets_twice the_same_twice

# Below another root, where no other package is, and so none that it needs.
root=$work/root
in_root() {
    dpkg --root="$root" --force-depends --force-not-root --force-script-chrootless "$@" >"$work/said" 2>"$work/told"
}
version=$(cat "$home/VERSION")
names_are_its_own() {
    dpkg-deb -c "$first_deb" >"$work/listed" && ! grep -q ' \./usr/include/pkcs12\.h$\| \./usr/share/man/man1/pkcs12\.1' "$work/listed" &&
        ! grep -qv ' root/root ' "$work/listed" && grep -q 'man1/pkcs12-proved\.1\.gz$' "$work/listed" &&
        dpkg-deb -f "$first_deb" Depends | grep -q '^libc6 (>= ' && [ "$(dpkg-deb -f "$first_deb" Version)" = "$version" ]
}
holds a_package_has_names_of_its_own names_are_its_own
installed() {
    mkdir -p "$root/var/lib/dpkg/info" "$root/var/lib/dpkg/updates" "$root/var/lib/dpkg/triggers" && : >"$root/var/lib/dpkg/status" &&
        in_root -i "$first_deb" && [ "$("$root/usr/bin/pkcs12" --version 2>"$work/told")" = "pkcs12 $version" ] &&
        setsid -w "$root/usr/bin/pkcs12" check "$plain" --password-file "$plain_password" >"$work/said" 2>"$work/told" &&
        grep -q '^certificates: ' "$work/said" && [ "$("$root/usr/bin/passdb" --version 2>"$work/told")" = "passdb $version" ] &&
        echo secret >"$work/secret" && setsid -w "$root/usr/bin/passdb" add "$work/users" ann --password-file "$work/secret" --rounds 1000 &&
        setsid -w "$root/usr/bin/passdb" check "$work/users" ann --password-file "$work/secret" &&
        (cd "$root" && md5sum -c --quiet - <"$root/var/lib/dpkg/info/pkcs12-proved.md5sums") >"$work/told" 2>&1
}
read_pages() {
    for page in pkcs12-proved passdb; do
        gzip -dc "$root/usr/share/man/man1/$page.1.gz" >"$work/page" && grep -q '^\.TH' "$work/page" || return 1
        ! command -v man >/dev/null || { man -l --warnings "$work/page" >"$work/said" 2>"$work/told" && [ ! -s "$work/told" ]; } || return 1
    done
}
removed() {
    in_root --purge pkcs12-proved && [ ! -e "$root/usr" ] && [ ! -s "$root/var/lib/dpkg/info/pkcs12-proved.list" ]
}
if [ "$(id -u)" -eq 0 ]; then
    holds a_package_is_installed_and_opens_a_store installed
    holds its_manual_pages_are_read read_pages
    holds nothing_is_left_of_it removed
else
    echo "skipped a_package_is_installed: dpkg installs as root alone"
fi

# The tarball has the sources as they are, and says of which commit it is.
sources() {
    [ "$(gzip -dc "$first_tarball" | git get-tar-commit-id)" = "$(git -C "$home" rev-parse HEAD)" ] && mkdir "$work/sources" &&
        tar -C "$work/sources" -xzf "$first_tarball" || return 1
    top=$work/sources/pkcs12-proved-$version
    grep -q "^Commit: $(git -C "$home" rev-parse HEAD)\$" "$top/ORIGIN" && rm "$top/ORIGIN" &&
        git -C "$home" ls-files | sort >"$work/due" && (cd "$top" && find . -type f -o -type l) | sed 's|^\./||' | sort >"$work/found" &&
        cmp "$work/due" "$work/found" && cmp "$home/crates.txt" "$top/crates.txt"
}
holds a_tarball_has_the_sources sources

holds a_folder_that_is_not_there refused 'is not there' "$work/nowhere"
holds one_folder_at_most refused 'one folder at most' "$work/first" "$work/second"
# What the package would not say is refused: a change that is not committed.
changed_tree() {
    git clone -q "$home" "$work/changed" 2>"$work/told" && echo >>"$work/changed/README.md" || return 1
    code=0
    "$work/changed/pkcs12" package "$work/first" >"$work/said" 2>"$work/told" || code=$?
    [ "$code" -eq 1 ] && grep -qF 'not committed' "$work/told" && [ "$(find "$work/first" -type f | wc -l)" -eq 2 ]
}
holds a_change_that_is_not_committed changed_tree

exit "$failed"
