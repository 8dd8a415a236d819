#!/usr/bin/env python3
"""Writes known answers of stores that are made, and of stores that are written after they are read.

Run at the top of the repository, with Python's `cryptography`:

    PYTHONPATH=tests python3 tests/vectors/pkcs12_stores.py > tests/vectors/pkcs12_stores.txt

A line `pkcs12-store CERTIFICATE KEY PASSWORD NAME DRAWN CERTIFICATE... = STORE` has a store as RFC 7292 section 5 makes it: by
`make_store`, which shares no code with the program, under the drawn salts of the key, the certificates and the MAC. A line
`pkcs12-written STORE = STORE` has a store in another spelling, and in its own.
"""

import hashlib
from pathlib import Path

from make_store import (
    certificate_bag, context, data, encrypt, identifier, mac_data, number, octet_string, padded, scheme, sealed, sequence, store, store_with_mac,
)
from read_store import SHA1, SHROUDED_KEY_BAG, element, mac_of

COUNT = 2048
FRIENDLY_NAME, LOCAL_KEY_ID = "1.2.840.113549.1.9.20", "1.2.840.113549.1.9.21"
KEY = bytes.fromhex("302e020100300506032b65700422042017ed9c73e9db649ec189a612831c5fc570238207c1aa9dfbd2c53e3ff5e5ea85")
PUBLIC = bytes.fromhex("302a300506032b65700321004d29167f3f1912a6f7adfa293a051a15c05ec67b8f17267b1c5550dce853bd0d")


def attribute(name, value):
    return sequence(identifier(name), element(0x31, value))


def attributes(name, certificate):
    """The friendly name and the SHA-1 of the certificate, in the order of their octets."""
    texts = [
        attribute(FRIENDLY_NAME, element(0x1E, name.encode("utf-16-be"))),
        attribute(LOCAL_KEY_ID, octet_string(hashlib.sha1(certificate).digest())),
    ]
    return element(0x31, b"".join(sorted(texts)))


def made(certificate, key, password, name, drawn, others):
    key_salt, content_salt, mac_salt = drawn[:8], drawn[8:16], drawn[16:24]
    own = attributes(name, certificate)
    bags = [certificate_bag(certificate, own)] + [certificate_bag(other) for other in others]
    ciphertext = encrypt(password, key_salt, COUNT, padded(key))
    key_bag = sequence(
        identifier(SHROUDED_KEY_BAG), context(0, sequence(scheme(key_salt, COUNT), octet_string(ciphertext))), own
    )
    contents = sequence(sealed(sequence(*bags), password, content_salt, COUNT), data(sequence(key_bag)))
    return store_with_mac(contents, password, mac_salt, COUNT)


def word(octets):
    return octets.hex() or "-"


def row(certificate, key, password, name, drawn, others):
    words = [certificate, key, password.encode(), name.encode(), drawn] + others
    print("pkcs12-store", *map(word, words), "=", word(made(certificate, key, password, name, drawn, others)))


def octets_of(label, size):
    """Octets cut from SHA-256 of a label."""
    blocks = [hashlib.sha256(f"{label} {n}".encode()).digest() for n in range(-(-size // 32))]
    return b"".join(blocks)[:size]


def made_stores():
    counted = bytes(range(24))
    print("# Stores that are made: a key and its certificate, with two others, with one, and with none")
    row(PUBLIC, KEY, "changeit", "look", counted, [bytes.fromhex("3000"), bytes.fromhex("30020500")])
    row(PUBLIC, b"", "", "look", counted, [bytes.fromhex("3000")])
    row(PUBLIC, KEY, "changeit", "", counted, [])
    print("# a name and a password of other letters, one behind the basic plane, and octets behind the salts that are left alone")
    row(PUBLIC, KEY, "päßwörd \U0001f511", "Schlüssel \U0001f511", octets_of("salts", 30), [])
    print("# certificates and keys at the bounds of a length's octets, and of a block of the cipher")
    for size in (0, 1, 7, 8, 9, 90, 127, 128, 200, 255, 256, 1000):
        row(octets_of("certificate", size), octets_of("key", size), "p", "n", octets_of(f"salts {size}", 24), [])
    print("# ten further certificates, one of them the first again")
    row(PUBLIC, KEY, "p", "n", octets_of("ten", 24), [octets_of(f"other {n}", 20 + n) for n in range(9)] + [PUBLIC])
    print("# a key and certificates of X.509, which other programs open: tests/built_stores.sh")
    folder = Path("examples")
    key = folder / "openssl-key"
    others = [(folder / name).read_bytes() for name in ("cert-0.der", "cert-1.der")]
    for password in ("changeit", "pa ss"):
        drawn = octets_of(password, 24)
        row((key / "cert-0.der").read_bytes(), (key / "key-0.der").read_bytes(), password, "server", drawn, others)
    print("# too few octets for the salts")
    for size in (0, 8, 16, 23):
        print("pkcs12-store", word(PUBLIC), word(KEY), word(b"p"), word(b"n"), word(counted[:size]), "= !Rng")


def written_stores():
    password, salt = "p", bytes(range(1, 9))
    contents = sequence(data(sequence(certificate_bag(bytes.fromhex("3000")))))
    digest = mac_of(password, salt, 1, contents)
    own = store_with_mac(contents, password, salt, 1)
    print("# A store is written as it was read; NULL behind SHA-1 and a count of 1 may be left out, and are written")
    print("pkcs12-written", own.hex(), "=", own.hex())
    for algorithm in (identifier(SHA1), identifier(SHA1) + element(0x05, b"")):
        for count in (None, 1):
            other = store(contents, mac_data(digest, salt, count, algorithm))
            print("pkcs12-written", other.hex(), "=", own.hex())
    bare = store(contents, b"")
    print("pkcs12-written", bare.hex(), "=", bare.hex())
    print("# octets behind it, one octet fewer, and a digest that has a parameter of another kind")
    broken = store(contents, mac_data(digest, salt, 1, identifier(SHA1) + number(0)))
    for text in (own + b"\0", own[:-1], broken, b""):
        print("pkcs12-written", word(text), "= !Malformed")


if __name__ == "__main__":
    made_stores()
    print()
    written_stores()
