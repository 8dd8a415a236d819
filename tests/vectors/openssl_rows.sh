# What the scripts share that write rows of OpenSSL: a folder to work in, and digits. Read by `.`, after `set -eu`.

work=$(mktemp -d)
trap 'rm -rf "$work"' EXIT

# The octets on standard input, in hexadecimal digits.
digits() {
    od -An -v -tx1 | tr -d ' \n'
}
