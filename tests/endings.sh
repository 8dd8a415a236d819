#!/bin/sh
# Compares the exit numbers by which pkcs12 ends with the table of docs/STORES.md.
set -eu

cd "$(dirname "$0")/.."
if ! command -v "${PYTHON:-python3}" >/dev/null; then
    echo "skipped endings: there is no python3"
    exit 0
fi
exec "${PYTHON:-python3}" tests/endings.py
