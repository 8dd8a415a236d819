#!/usr/bin/env python3
"""Writes known answers of other programs for modes and derivations: Python's hmac, hashlib and cryptography.

Run at the top of the repository, with the package `cryptography`:

    python3 tests/vectors/modes_and_keys.py > tests/vectors/modes_and_keys.txt

A line is `NAME ARGUMENT... = RESULT`, as in `modes_and_keys_standards.txt`, which has those of the standards. Keys and texts
are fixed. Last run with Python 3.11.7 and cryptography 48.0.0; a new run writes the same file.
"""

import hashlib
import hmac

from cryptography.hazmat.primitives.ciphers.aead import AESGCM


def word(octets):
    return octets.hex() or "-"


def number(n):
    """The octets of a number as DER writes it."""
    return n.to_bytes(n.bit_length() // 8 + 1, "big").hex()


print("# Known answers for modes and derivations, written by tests/vectors/modes_and_keys.py.")

print("\n# Python's hmac: key, message")
for n in range(0, 150, 5):
    for name in ("sha1", "sha224", "sha256", "sha384", "sha512"):
        key, message = bytes(range(n)), bytes(range(150 - n))
        print(f"hmac-{name} {word(key)} {word(message)} = {hmac.new(key, message, name).hexdigest()}")

print("\n# Python's cryptography: key, nonce, text")
for size in (16, 24, 32):
    for n in range(0, 70, 1 if size == 16 else 3):
        key, nonce, text = bytes(range(n, n + size)), bytes(range(n + 7, n + 19)), bytes(range(100, 100 + n))
        sealed = AESGCM(key).encrypt(nonce, text, None)
        print(f"gcm-aes{8 * size}-encrypt {word(key)} {word(nonce)} {word(text)} = {word(sealed)}")
        print(f"gcm-aes{8 * size}-decrypt {word(key)} {word(nonce)} {word(sealed)} = {word(text)}")
        wrong = sealed[:-1] + bytes([sealed[-1] ^ 1])
        print(f"gcm-aes{8 * size}-decrypt {word(key)} {word(nonce)} {word(wrong)} = !BadTag")

print("\n# Python's hashlib: password, salt, rounds, length; 0 rounds are one")
for rounds in (0, 1, 2, 3, 1000):
    for size in (1, 20, 33, 100, 256):
        for name in ("sha1", "sha256", "sha512"):
            key = hashlib.pbkdf2_hmac(name, b"password", b"salt", max(rounds, 1), size)
            print(f"pbkdf2-{name} {word(b'password')} {word(b'salt')} {number(rounds)} {number(size)} = {word(key)}")

print("\n# Python's hashlib: password, salt, log_n, r, p, length")
for log_n, r, p in ((1, 1, 1), (2, 1, 3), (3, 2, 2), (5, 3, 1), (7, 8, 2), (10, 4, 3)):
    for size in (1, 31, 32, 33, 64, 100):
        key = hashlib.scrypt(b"password", salt=b"salt", n=1 << log_n, r=r, p=p, dklen=size)
        numbers = " ".join(number(n) for n in (log_n, r, p, size))
        print(f"scrypt {word(b'password')} {word(b'salt')} {numbers} = {word(key)}")
