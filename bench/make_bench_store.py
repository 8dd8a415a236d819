#!/usr/bin/env python3
"""Makes the stores that are measured, all with the password `p`.

    make_bench_store.py KIND NUMBER STORE

writes the store to STORE and its hexadecimal line to STORE.hex. The kinds:

    plain NUMBER          a store of NUMBER octets: one certificate with a long extension, not encrypted
    ber NUMBER            the same store in BER, as NSS and BouncyCastle write: indefinite lengths, and its octets and those of its content in parts of
                          1,000 octets; in DER it has NUMBER octets
    smallest 1            a store of 131 octets: one certificate bag of two octets, not encrypted
    bags NUMBER           NUMBER certificate bags of two octets in one content that is not encrypted
    shortest NUMBER       NUMBER bags of nine octets, the shortest that there are, of another kind; 1,864,000 are as many as a store can have
    contents NUMBER       NUMBER contents of one certificate bag of two octets each
    count NUMBER          a certificate under Triple DES, with NUMBER as the count of the MAC and of the content
    sealed NUMBER         a certificate of NUMBER octets under Triple DES, counts 1
    sealed-aes NUMBER     a certificate of NUMBER octets under AES-256 (PBES2, HMAC-SHA256), counts 1
    keys NUMBER           NUMBER private keys under Triple DES, counts 1
    keys-aes NUMBER       ten private keys under AES-256 (PBES2, HMAC-SHA256) with NUMBER rounds, count 1 of the MAC
    hundred-keys-aes NUMBER   a hundred of them
    thousand-keys-aes NUMBER  a thousand of them
    contents-aes NUMBER   two contents under AES-256 (PBES2, HMAC-SHA256) with NUMBER rounds, a certificate in each
    certificates NUMBER   NUMBER certificates of 1,000 octets, not encrypted
    long-keys NUMBER      NUMBER private keys of 1,200 octets under Triple DES, counts 1
    pairs NUMBER          NUMBER certificates of two octets, and as many private keys under Triple DES, counts 1, in the other
                          order, with the local key ids of the certificates
    short NUMBER          NUMBER certificates of the example, and as many private keys of Ed25519 under Triple DES, counts 1, each with a local
                          key id of 20 octets
    short-aes NUMBER      the same, all in one content under AES-256 (PBES2, HMAC-SHA256)
"""

import os
import sys

sys.dont_write_bytecode = True
HOME = os.path.join(os.path.dirname(os.path.abspath(__file__)), "..")
sys.path.insert(0, os.path.join(HOME, "tests"))

import make_store as make
from read_store import DATA, mac_of, only

HMAC_SHA256, AES_256_CBC = "1.2.840.113549.2.9", "2.16.840.1.101.3.4.1.42"

PASSWORD = "p"
CONTENT_SALT = bytes([8, 7, 6, 5, 4, 3, 2, 1])
MAC_SALT = bytes([1, 2, 3, 4, 5, 6, 7, 8])
SMALL_BAG = make.certificate_bag(bytes.fromhex("3000"))


def example_certificate():
    with open(os.path.join(HOME, "examples", "openssl", "cert-1.der"), "rb") as file:
        return file.read()


def long_certificate(filling):
    """The example's root certificate with one extension of so many octets in place of its own; the signature is left as it is."""
    outer = only(example_certificate())
    inside = outer.sequence()
    parts = [inside.element() for _ in range(7)]
    extension = make.sequence(make.identifier("2.999.1"), make.octet_string(bytes(filling)))
    signed = make.sequence(*parts, make.context(3, make.sequence(extension)))
    return make.sequence(signed, outer.element(), outer.element())


def of_length(wanted, make_octets):
    """`make_octets` of the number that gives so many octets."""
    filling = wanted - len(make_octets(wanted)) + wanted
    octets = make_octets(filling)
    assert len(octets) == wanted
    return octets


def certificate_of_store(wanted):
    """The certificate with which `plain_store` has so many octets."""
    filling = 2 * wanted - len(plain_store(long_certificate(wanted)))
    certificate = long_certificate(filling)
    assert len(plain_store(certificate)) == wanted
    return certificate


def with_mac(contents, count=1):
    return make.store_with_mac(contents, PASSWORD, MAC_SALT, count)


def plain_bags(bags):
    return with_mac(make.sequence(make.data(make.sequence(*bags))))


def plain_store(certificate):
    return plain_bags([make.certificate_bag(certificate)])


def indefinite(tag, *parts):
    """An element of indefinite length (X.690 section 8.1.3.6)."""
    return bytes([tag, 0x80]) + b"".join(parts) + bytes(2)


def in_parts(octets):
    return indefinite(0x24, *[make.octet_string(octets[at : at + 1000]) for at in range(0, len(octets), 1000)])


def data_in_ber(octets):
    return indefinite(0x30, make.identifier(DATA), indefinite(0xA0, in_parts(octets)))


def ber_store(certificate):
    safe = indefinite(0x30, data_in_ber(make.sequence(make.certificate_bag(certificate))))
    return indefinite(0x30, make.number(3), data_in_ber(safe), make.mac_data(mac_of(PASSWORD, MAC_SALT, 1, safe), MAC_SALT, 1))


def key_of(octets):
    """A private key of an algorithm without parameters (RFC 5958 section 2)."""
    return make.sequence(make.number(0), make.sequence(make.identifier("2.999.1")), make.octet_string(octets))


def sealed_store(certificate, count):
    bags = make.sequence(make.certificate_bag(certificate))
    return with_mac(make.sequence(make.sealed(bags, PASSWORD, CONTENT_SALT, count)), count)


def aes_content(bags, rounds):
    parameters = CONTENT_SALT, rounds, None, HMAC_SHA256, AES_256_CBC, bytes(16)
    ciphertext = make.encrypt_pbes2(PASSWORD, parameters, make.padded(make.sequence(*bags), 16))
    return make.encrypted_data(make.pbes2(parameters), ciphertext)


def aes_store(bags):
    return with_mac(make.sequence(aes_content(bags, 1)))


def long_keys(number):
    key = of_length(1200, lambda filling: key_of(bytes(filling)))
    return plain_bags([make.sealed_key(key, PASSWORD, at.to_bytes(8, "big"), 1) for at in range(number)])


def pairs_store(number):
    ids = [make.local_key_id(at.to_bytes(4, "big")) for at in range(number)]
    certificates = [make.certificate_bag(bytes.fromhex("3000"), key_id) for key_id in ids]
    keys = [make.sealed_key(key_of(b"key"), PASSWORD, at.to_bytes(8, "big"), 1, key_id) for at, key_id in enumerate(ids)]
    return plain_bags(certificates + keys[::-1])


def short_bags(number):
    certificate = example_certificate()
    key = make.sequence(make.number(0), make.sequence(make.identifier("1.3.101.112")), make.octet_string(make.octet_string(bytes(32))))
    ids = [make.local_key_id(at.to_bytes(20, "big")) for at in range(number)]
    return [make.certificate_bag(certificate, key_id) for key_id in ids] + [
        make.sealed_key(key, PASSWORD, at.to_bytes(8, "big"), 1, key_id) for at, key_id in enumerate(ids)]


def keys_store(number):
    with open(os.path.join(HOME, "examples", "openssl-key", "key-0.der"), "rb") as file:
        key = file.read()
    return plain_bags([make.sealed_key(key, PASSWORD, at.to_bytes(8, "big"), 1) for at in range(number)])


def aes_keys_store(number, rounds):
    with open(os.path.join(HOME, "examples", "openssl-key", "key-0.der"), "rb") as file:
        key = make.padded(file.read(), 16)
    bags = []
    for at in range(number):
        parameters = at.to_bytes(8, "big"), rounds, None, HMAC_SHA256, AES_256_CBC, bytes(16)
        bags.append(make.key_bag(make.pbes2(parameters), make.encrypt_pbes2(PASSWORD, parameters, key)))
    return plain_bags(bags)


def store_of(kind, number):
    if kind == "plain":
        return plain_store(certificate_of_store(number))
    if kind == "ber":
        return ber_store(certificate_of_store(number))
    if kind == "smallest":
        return plain_store(bytes.fromhex("3000"))
    if kind == "bags":
        return plain_bags([SMALL_BAG] * number)
    if kind == "shortest":
        return plain_bags([make.sequence(make.identifier("1.2"), make.context(0, bytes.fromhex("0500")))] * number)
    if kind == "contents":
        return with_mac(make.sequence(*[make.data(make.sequence(SMALL_BAG))] * number))
    if kind == "count":
        return sealed_store(example_certificate(), number)
    if kind == "sealed":
        return sealed_store(of_length(number, long_certificate), 1)
    if kind == "sealed-aes":
        return aes_store([make.certificate_bag(of_length(number, long_certificate))])
    if kind == "keys":
        return keys_store(number)
    if kind == "keys-aes":
        return aes_keys_store(10, number)
    if kind == "hundred-keys-aes":
        return aes_keys_store(100, number)
    if kind == "thousand-keys-aes":
        return aes_keys_store(1000, number)
    if kind == "contents-aes":
        return with_mac(make.sequence(*[aes_content([make.certificate_bag(example_certificate())], number)] * 2))
    if kind == "certificates":
        return plain_bags([make.certificate_bag(of_length(1000, long_certificate))] * number)
    if kind == "long-keys":
        return long_keys(number)
    if kind == "pairs":
        return pairs_store(number)
    if kind == "short":
        return plain_bags(short_bags(number))
    if kind == "short-aes":
        return aes_store(short_bags(number))
    sys.exit(__doc__)


def main():
    if len(sys.argv) != 4:
        sys.exit(__doc__)
    kind, number, path = sys.argv[1:]
    store = store_of(kind, int(number))
    with open(path, "wb") as file:
        file.write(store)
    with open(path + ".hex", "w", encoding="ascii") as file:
        file.write(store.hex() + "\n")


main()
