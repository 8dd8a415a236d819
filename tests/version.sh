#!/bin/sh
# Whether VERSION, the changelog, the man page and the sources of the commands have one version.
set -eu

cd "$(dirname "$0")/.."
version=$(cat VERSION)
bad=0

has() {
    if grep -qF -- "$2" "$1"; then
        echo "ok $1"
    else
        echo "not ok $1: no $2"
        bad=1
    fi
}

has CHANGELOG.md "## $version - "
has docs/pkcs12.1 "\"pkcs12 $version\""
has crates/pkcs12_arguments/src/command_line.rt ".version(\"$version\")"
has crates/passdb_command/src/command_line.rt ".version(\"$version\")"
if [ "$(sed -n 's/^## \([0-9][^ ]*\).*/\1/p' CHANGELOG.md | head -n 1)" != "$version" ]; then
    echo "not ok CHANGELOG.md: its last version is another"
    bad=1
fi
if grep '^## ' CHANGELOG.md | grep -vqxE '## Unreleased|## [0-9]+\.[0-9]+\.[0-9]+ - [0-9]{4}-[0-9]{2}-[0-9]{2}'; then
    echo "not ok CHANGELOG.md: a version without its date"
    bad=1
fi
exit "$bad"
