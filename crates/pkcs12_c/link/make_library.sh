#!/bin/sh
# make_library.sh FOLDER: makes libpkcs12.a and libpkcs12.so.1 in the folder, from the archive that a build leaves in out/ and the
# allocator of heap.c. CC and AR name other programs than cc and ar; CC may have options.
# shellcheck disable=SC2086 # so that it may
set -eu

crate=$(cd "$(dirname "$0")/.." && pwd)
folder=$1
archive=$crate/out/libpkcs12_c.a
[ -f "$archive" ] || {
    echo "make_library.sh: $archive is not there: run rt lib in $crate" >&2
    exit 1
}
work=$(mktemp -d)
trap 'rm -rf "$work"' EXIT
${CC:-cc} -O2 -fPIC -Wall -Wextra -c "$crate/link/heap.c" -o "$work/heap.o"
cp "$archive" "$work/libpkcs12.a"
"${AR:-ar}" rs "$work/libpkcs12.a" "$work/heap.o"
${CC:-cc} -shared -s -o "$work/libpkcs12.so.1" -Wl,-soname,libpkcs12.so.1 -Wl,--version-script="$crate/link/pkcs12.map" \
    -Wl,--gc-sections -Wl,-z,defs -Wl,-z,relro,-z,now -Wl,--whole-archive "$work/libpkcs12.a" -Wl,--no-whole-archive
# Each call of the header is there.
sed -n 's|^[a-z0-9_]* \(pkcs12_[a-z0-9_]*\)(.*$|\1|p' "$crate/include/pkcs12.h" | sort -u >"$work/declared"
if command -v nm >/dev/null; then
    nm -D --defined-only "$work/libpkcs12.so.1" | sed 's/.* //' | sort -u >"$work/defined"
    missing=$(comm -23 "$work/declared" "$work/defined" | tr '\n' ' ')
    [ -z "$missing" ] || {
        echo "make_library.sh: the library lacks ${missing}of pkcs12.h: it is older than the header" >&2
        exit 1
    }
fi
mv -f "$work/libpkcs12.a" "$work/libpkcs12.so.1" "$folder"
