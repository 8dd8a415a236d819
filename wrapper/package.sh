# shellcheck shell=sh disable=SC2154 # names that the scripts set that source this
# Makes a Debian package of both commands and the library for C, and a tarball of the sources. Sourced by ./pkcs12 after build.sh.

package_name=pkcs12-proved

not_packaged() {
    printf 'pkcs12: BuildFailed (1): not packaged: %s\n' "$1" >&2
    exit 1
}

# The commit of the sources, which are as it has them.
find_commit() {
    command -v git >/dev/null || not_packaged "there is no git"
    package_commit=$(git -C "$wrapper_home" rev-parse HEAD 2>/dev/null) || not_packaged "$wrapper_home is no clone"
    [ -z "$(git -C "$wrapper_home" status --porcelain)" ] ||
        not_packaged "the tree has changes that are not committed, which the package would not say"
    SOURCE_DATE_EPOCH=$(git -C "$wrapper_home" log -1 --format=%ct)
    export SOURCE_DATE_EPOCH
    package_version=$(cat -- "$wrapper_home/VERSION")
}

# Moves the file or folder $1 of the package to $2.
move() {
    mkdir -p -- "$(dirname -- "$package_root/$2")"
    mv -- "$package_root/$1" "$package_root/$2"
}

# Takes out what only `uninstall` of the command $1 reads, and what the package has once or in another form.
drop_notes() {
    for package_each in made with-library libdir; do
        rm -f -- "$package_root/usr/lib/$1/$package_each"
    done
    rm -f -- "$package_root/usr/share/doc/$1"/LICENSE-*
}

# Puts what is installed where a package has it, under names that no other package has: NSS has a header pkcs12.h, and OpenSSL a manual page
# pkcs12(1ssl).
lay_out() {
    DESTDIR=$package_root "$wrapper_home/pkcs12" install --libdir="lib/$package_multiarch" /usr >"$package_work/installed" ||
        not_packaged "pkcs12 could not be installed, as is said above"
    DESTDIR=$package_root "$wrapper_home/passdb" install /usr >>"$package_work/installed" ||
        not_packaged "passdb could not be installed, as is said above"
    drop_notes pkcs12
    drop_notes passdb
    move usr/share/man/man1/pkcs12.1 "usr/share/man/man1/$package_name.1"
    move usr/share/doc/pkcs12 "usr/share/doc/$package_name"
    move usr/share/doc/passdb/PASSDB.md "usr/share/doc/$package_name/PASSDB.md"
    for package_each in login.py login.sh; do
        move "usr/share/doc/passdb/$package_each" "usr/share/doc/$package_name/examples/$package_each"
    done
    rm -rf -- "$package_root/usr/share/doc/passdb"
    [ -f "$package_root/usr/include/pkcs12.h" ] || return 0
    move usr/include/pkcs12.h "usr/include/$package_name/pkcs12.h"
    package_pc=$package_root/usr/lib/$package_multiarch/pkgconfig
    sed -e 's|^prefix=.*|prefix=/usr|' -e "s|^includedir=.*|includedir=\${prefix}/include/$package_name|" "$package_pc/pkcs12.pc" \
        >"$package_pc/$package_name.pc"
    rm -f -- "$package_pc/pkcs12.pc"
}

# Takes out what a debugger reads.
strip_all() {
    command -v strip >/dev/null || return 0
    find "$package_root/usr/lib" -type f '(' -name '*.so.*' -o -perm -100 ')' -exec strip --strip-unneeded --enable-deterministic-archives {} +
    find "$package_root/usr/lib" -type f -name '*.a' -exec strip --strip-debug --enable-deterministic-archives {} +
}

# The licences in the form that Debian's policy asks for.
copyright() {
    cat <<END
Format: https://www.debian.org/doc/packaging-manuals/copyright-format/1.0/
Upstream-Name: $package_name

Files: *
Copyright: the authors of PKCS key containers
License: Apache-2.0 or Expat

License: Apache-2.0
 On Debian systems the text of the Apache License 2.0 is in
 /usr/share/common-licenses/Apache-2.0.

License: Expat
END
    sed -n '/^Permission is/,$p' "$wrapper_home/LICENSE-MIT" | sed -e 's/^$/./' -e 's/^/ /'
}
changelog() {
    printf '%s (%s) unstable; urgency=medium\n\n  * See CHANGELOG.md.gz.\n\n -- %s  %s\n' \
        "$package_name" "$package_version" "$package_maintainer" "$(date -u -R -d "@$SOURCE_DATE_EPOCH")"
}
# What the package was made of.
origin() {
    printf 'Version: %s\nCommit: %s\nProved with: %s\n' "$package_version" "$package_commit" "$package_kit"
}

# Writes the documents, packed where policy wants them packed.
write_documents() {
    package_doc=$package_root/usr/share/doc/$package_name
    copyright >"$package_doc/copyright"
    changelog >"$package_doc/changelog"
    origin >"$package_doc/origin"
    gzip -9 -n -- "$package_doc/changelog" "$package_doc/CHANGELOG.md" "$package_root/usr/share/man/man1"/*.1
    find "$package_doc" -type f -exec chmod 644 {} +
}

# The libraries of the system that the programs need, by dpkg-shlibdeps.
find_depends() {
    mkdir -p -- "$package_work/shlibs/debian"
    printf 'Source: %s\n\nPackage: %s\nArchitecture: any\n' "$package_name" "$package_name" >"$package_work/shlibs/debian/control"
    package_depends=$(cd -- "$package_work/shlibs" &&
        find "$package_root/usr/lib" -type f '(' -name '*.so.*' -o -perm -100 ')' -exec dpkg-shlibdeps -O --ignore-missing-info {} + 2>"$package_work/told" |
        sed -n 's/^shlibs:Depends=//p') && [ -n "$package_depends" ] || not_packaged "dpkg-shlibdeps: $(cat -- "$package_work/told")"
}

write_control() {
    mkdir -p -- "$package_root/DEBIAN"
    cat >"$package_root/DEBIAN/control" <<END
Package: $package_name
Version: $package_version
Architecture: $package_architecture
Maintainer: $package_maintainer
Installed-Size: $(du -sk --apparent-size -- "$package_root/usr" | cut -f 1)
Depends: $package_depends
Section: utils
Priority: optional
Description: opens PKCS#12 stores, and keeps password hashes, with proofs
 The command pkcs12 opens a PKCS#12 store (.p12, .pfx), writes its certificates
 and its private keys under a new password as PEM files, lists what is in it,
 and changes its password and its algorithms. What it makes of a store, and when
 it refuses one, is proved down to the ciphers. The manual page is $package_name(1).
 .
 The command passdb keeps a file of names and password hashes, as a login needs
 it. The manual page is passdb(1).
END
    if [ -e "$package_root/usr/lib/$package_multiarch/libpkcs12.so.1" ]; then
        cat >>"$package_root/DEBIAN/control" <<END
 .
 The package has the library libpkcs12 for C too, with the header
 <$package_name/pkcs12.h> and $package_name.pc for pkg-config.
END
        printf 'libpkcs12 1 %s\n' "$package_name" >"$package_root/DEBIAN/shlibs"
        printf 'activate-noawait ldconfig\n' >"$package_root/DEBIAN/triggers"
    fi
    (cd -- "$package_root" && find usr -type f | LC_ALL=C sort | xargs -d '\n' md5sum) >"$package_root/DEBIAN/md5sums"
}

# Makes the package in the folder $1.
make_package() {
    package_file=$1/${package_name}_${package_version}_$package_architecture.deb
    dpkg-deb --root-owner-group -Zxz --build "$package_root" "$package_file.new" >"$package_work/told" 2>&1 ||
        not_packaged "dpkg-deb: $(cat -- "$package_work/told")"
    mv -f -- "$package_file.new" "$package_file"
}
# Makes the tarball of the sources in the folder $1. It has the commit, which `git get-tar-commit-id` prints.
make_tarball() {
    package_sources=$1/$package_name-$package_version.tar.gz
    origin >"$package_work/ORIGIN"
    git -C "$wrapper_home" archive --format=tar --prefix="$package_name-$package_version/" --add-file="$package_work/ORIGIN" HEAD |
        gzip -9 -n >"$package_sources.new" || not_packaged "$package_sources could not be written"
    mv -f -- "$package_sources.new" "$package_sources"
}

package() {
    [ $# -le 1 ] || wrong_use "one folder at most, for what is made: ./pkcs12 package [FOLDER]"
    package_folder=${1-.}
    [ -d "$package_folder" ] && [ -w "$package_folder" ] || not_packaged "the folder $package_folder is not there, or cannot be written"
    for package_each in dpkg-deb dpkg-shlibdeps dpkg-architecture; do
        command -v "$package_each" >/dev/null || not_packaged "$package_each, of the Debian package dpkg-dev, is not there"
    done
    find_commit
    package_kit=$(rt version 2>/dev/null) || package_kit=$(sed -n 's/^    \(rattle-kit-.*\)/\1/p' "$wrapper_home/README.md")
    # It warns where there is no gcc, which these do not need.
    package_architecture=$(dpkg-architecture -qDEB_HOST_ARCH 2>/dev/null) &&
        package_multiarch=$(dpkg-architecture -qDEB_HOST_MULTIARCH 2>/dev/null) || not_packaged "dpkg-architecture does not name this machine's architecture"
    package_maintainer="${DEBFULLNAME:-The users of $package_name} <${DEBEMAIL:-root@$(hostname -f 2>/dev/null || echo localhost)}>"
    umask 022
    package_work=$(mktemp -d) || not_packaged "a folder for temporary files could not be made"
    trap 'rm -rf -- "$package_work"' EXIT
    trap 'exit 129' HUP
    trap 'exit 130' INT
    trap 'exit 143' TERM
    package_root=$package_work/root
    mkdir -- "$package_root"
    lay_out
    strip_all
    write_documents
    find_depends
    write_control
    # one time for all
    find "$package_root" -exec touch -h -d "@$SOURCE_DATE_EPOCH" {} +
    make_package "$package_folder"
    make_tarball "$package_folder"
    printf '%s\n' "$package_file" "$package_sources"
}
