#!/usr/bin/env python3
"""Makes the stores by which listing is measured, all with the password `p`.

    make_inventory_store.py KIND NUMBER STORE

writes the store to STORE and its hexadecimal line to STORE.hex. It has NUMBER certificates, whose names and numbers are their own
and whose keys and signatures are those of the example. The kinds:

    chain          one private key, and a chain of all certificates, each issued by the next one
    alternating    one private key, and certificates of two names that issue each other by turns: the chain has all of them
    keys           a private key for each certificate, which have all one issuer, the last one
    chains         the chain of the first kind, which as many private keys begin
"""

import os
import sys

sys.dont_write_bytecode = True
HOME = os.path.join(os.path.dirname(os.path.abspath(__file__)), "..")
sys.path.insert(0, os.path.join(HOME, "tests"))

import make_store as make
from read_store import element, only

PASSWORD = "p"
MAC_SALT = bytes([1, 2, 3, 4, 5, 6, 7, 8])

# A private key of an algorithm without parameters (RFC 5958 section 2).
KEY = make.sequence(make.number(0), make.sequence(make.identifier("2.999.1")), make.octet_string(b"key"))


def name(text):
    """A name of one common name (RFC 5280 section 4.1.2.4)."""
    return make.sequence(element(0x31, make.sequence(make.identifier("2.5.4.3"), element(0x0C, text.encode()))))


def example_parts():
    """Version, algorithm, validity and public key of the example's certificate, and its signature."""
    with open(os.path.join(HOME, "examples", "openssl", "cert-1.der"), "rb") as file:
        outer = only(file.read())
    inside = outer.sequence()
    version, _, algorithm, _, validity, _, key = (inside.element() for _ in range(7))
    return version, algorithm, validity, key, outer.element() + outer.element()


PARTS = example_parts()


def certificate(number, subject, issuer):
    version, algorithm, validity, key, signature = PARTS
    signed = make.sequence(version, make.number(number + 1), algorithm, name(issuer), validity, name(subject), key)
    return make.sequence(signed, signature)


def key_id(number):
    return make.local_key_id(number.to_bytes(4, "big"))


def certificate_bag(number, subject, issuer):
    return make.certificate_bag(certificate(number, subject, issuer), key_id(number))


def key_bag(number):
    """A private key under Triple DES, with the local key id of the certificate of this number."""
    return make.sealed_key(KEY, PASSWORD, number.to_bytes(8, "big"), 1, key_id(number))


def bags_of(kind, count):
    numbers = range(count)
    if kind == "chain":
        return [certificate_bag(at, f"name {at}", f"name {min(at + 1, count - 1)}") for at in numbers] + [key_bag(0)]
    if kind == "alternating":
        return [certificate_bag(at, f"name {at % 2}", f"name {(at + 1) % 2}") for at in numbers] + [key_bag(0)]
    if kind == "keys":
        certificates = [certificate_bag(at, f"name {at}", f"name {count - 1}") for at in numbers]
        return certificates + [key_bag(at) for at in numbers]
    if kind == "chains":
        return bags_of("chain", count) + [key_bag(0)] * (count - 1)
    sys.exit(__doc__)


def main():
    if len(sys.argv) != 4:
        sys.exit(__doc__)
    kind, count, path = sys.argv[1], int(sys.argv[2]), sys.argv[3]
    contents = make.sequence(make.data(make.sequence(*bags_of(kind, count))))
    store = make.store_with_mac(contents, PASSWORD, MAC_SALT, 1)
    with open(path, "wb") as file:
        file.write(store)
    with open(path + ".hex", "w", encoding="ascii") as file:
        file.write(store.hex() + "\n")


main()
