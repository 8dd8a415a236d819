# shellcheck shell=sh disable=SC2034,SC2154 # names that install.sh has
# What passdb has of its own of install.sh: its files, and no library. Sourced after it by ./passdb, and for `uninstall` alone by the
# installed command, where it is the end of install.sh.
pkcs12_files='bin/passdb
lib/passdb/passdb
lib/passdb/ask.sh
lib/passdb/terminal.sh
lib/passdb/install.sh
share/man/man1/passdb.1
share/bash-completion/completions/passdb
share/doc/passdb/PASSDB.md
share/doc/passdb/login.py
share/doc/passdb/login.sh
share/doc/passdb/CHANGELOG.md
share/doc/passdb/LICENSE-APACHE
share/doc/passdb/LICENSE-MIT'
pkcs12_program=${passdb_program-}
pkcs12_with_library=lib/passdb/with-library
pkcs12_libdir_note=lib/passdb/libdir
library_files() { :; }
find_library() { pkcs12_archive=; }

# Each file of the installation but the note of folders, from its source. The installed command is that of pkcs12 under its own name.
stage_files() {
    pkcs12_word=$pkcs12_prefix
    case $pkcs12_word in
        *[!A-Za-z0-9/._+-]*) pkcs12_word= ;;
    esac
    stage 755 bin/passdb sed -e 's|pkcs12|passdb|g' -e 's|PKCS12_|PASSDB_|g' -e "s|^passdb_installed=.*|passdb_installed=$pkcs12_word|" \
        "$wrapper_home/wrapper/installed.sh"
    stage 755 lib/passdb/passdb cat "$pkcs12_program"
    stage 644 lib/passdb/ask.sh cat "$wrapper_home/wrapper/ask_passdb.sh"
    stage 644 lib/passdb/terminal.sh cat "$wrapper_home/wrapper/terminal.sh"
    stage 644 lib/passdb/install.sh cat "$wrapper_home/wrapper/install.sh" "$wrapper_home/wrapper/install_passdb.sh"
    stage 644 share/man/man1/passdb.1 sed -e '/^\.\\" Below here/,/^\.\\" Above here/d' -e 's|\\&\./passdb|passdb|g' -e 's|\./passdb|passdb|g' \
        "$wrapper_home/docs/passdb.1"
    stage 644 share/bash-completion/completions/passdb cat "$wrapper_home/docs/passdb.bash"
    stage 644 share/doc/passdb/PASSDB.md cat "$wrapper_home/docs/PASSDB.md"
    for pkcs12_each in login.py login.sh; do
        stage 644 "share/doc/passdb/$pkcs12_each" cat "$wrapper_home/examples/$pkcs12_each"
    done
    for pkcs12_each in CHANGELOG.md LICENSE-APACHE LICENSE-MIT; do
        stage 644 "share/doc/passdb/$pkcs12_each" cat "$wrapper_home/$pkcs12_each"
    done
}
