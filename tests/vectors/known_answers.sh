#!/bin/sh
# Writes the standard input of the program `known_answers`, and what it has to print: all known answers of this folder.
#
# Run at the top of the repository:
#
#     sh tests/vectors/known_answers.sh
set -eu

cd tests/vectors
{
    echo "# Known answers, put together by tests/vectors/known_answers.sh. A case is a line NAME ARGUMENT... = RESULT: octets"
    echo "# in hexadecimal, - is no octets, a number is written as DER writes an INTEGER, and ! begins a refusal."
    for file in block_ciphers modes_and_keys_standards modes_and_keys pkcs12_keys pkcs12_stores grammars phc_strings schemes encrypted_keys openssl_documents public_keys fronts; do
        echo
        cat "$file.txt"
    done
} >../../crates/known_answers/stdin
echo "$(grep -c '^[^#]' ../../crates/known_answers/stdin) passed, 0 failed" >../../crates/known_answers/stdout
