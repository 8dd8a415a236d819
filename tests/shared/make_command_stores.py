#!/usr/bin/env python3
"""Writes stores for the tests of the command into a folder, under the password `p`: bags that are not exported, 3,000 certificates,
8,000,000 octets of one certificate and of many, 60,000 private keys, BER and PEM, and what careless and hostile people hand in.

usage: make_command_stores.py FOLDER
"""

import pathlib
import sys

sys.path.insert(0, str(pathlib.Path(__file__).resolve().parent.parent))

from make_store import certificate_bag, context, data, element, identifier, mac_data, number, octet_string, sequence, store, store_with_mac

work = sys.argv[1]
PASSWORD = "p"


def write(name, octets):
    with open(f"{work}/{name}", "wb") as file:
        file.write(octets)


def bag(kind, value):
    return sequence(identifier("1.2.840.113549.1.12.10.1." + kind), context(0, value))


def plain_store(bags):
    return store_with_mac(sequence(data(sequence(*bags))), PASSWORD, b"salt", 1)


any_value = sequence(number(0))
write("passed.p12", plain_store([bag("1", any_value), bag("4", any_value), bag("4", any_value), bag("5", any_value), bag("6", any_value)]))
write("many.p12", plain_store([certificate_bag(octet_string(bytes([n % 256]) * 700)) for n in range(3000)]))
write("large.p12", plain_store([certificate_bag(octet_string(bytes(8_000_000)))]))
write("large-many.p12", plain_store([certificate_bag(octet_string(bytes(1000)))] * 8000))
whole = plain_store([certificate_bag(b"certificate")])
header = 2 if whole[1] < 128 else 2 + whole[1] % 128
write("ber.p12", whole[:1] + b"\x80" + whole[header:] + b"\0\0")
size = int.from_bytes(whole[header - whole[1] % 128 : header], "big") if whole[1] >= 128 else whole[1]
write("long.p12", whole[:1] + b"\x84" + size.to_bytes(4, "big") + whole[header:])
write("parts.p12", sequence(number(3), sequence(identifier("1.2.840.113549.1.7.1"), context(0, element(0x24, octet_string(b"parts"))))))
write("pem.p12", b"-----BEGIN CERTIFICATE-----\nAAAA\n-----END CERTIFICATE-----\n")

# --- what careless and hostile people hand in ---

EXAMPLES = pathlib.Path(__file__).resolve().parent.parent.parent / "examples"
CERTIFICATE = (EXAMPLES / "openssl-key" / "cert-0.der").read_bytes()
KEY = (EXAMPLES / "openssl-key" / "key-0.der").read_bytes()


def attributes(name=None, key_id=None):
    """The attributes of a bag: a friendly name, in octets of UTF-16 or as a text, and a local key id."""
    parts = b""
    if name is not None:
        octets = name if isinstance(name, bytes) else name.encode("utf-16-be")
        parts += sequence(identifier("1.2.840.113549.1.9.20"), element(0x31, element(0x1E, octets)))
    if key_id is not None:
        parts += sequence(identifier("1.2.840.113549.1.9.21"), element(0x31, octet_string(key_id)))
    return element(0x31, parts)


def outer_store(octets):
    """A store whose MAC agrees, over any octets in place of the list of contents."""
    return store_with_mac(octets, PASSWORD, b"salt", 1)


write("mixed.p12", plain_store([certificate_bag(CERTIFICATE), bag("1", KEY)]))
write("not-a-certificate.p12", plain_store([certificate_bag(b"hello \x1b[31m"), certificate_bag(CERTIFICATE)]))
write("names.p12", plain_store([
    certificate_bag(CERTIFICATE, attributes("a\u202eb\u200bc\u2066d\ufeffe\u2028f\u0085g")),
    certificate_bag(CERTIFICATE, attributes("../../etc/passwd $(id)'\n")),
    certificate_bag(CERTIFICATE, attributes("long" * 2000, b"\xab" * 5000)),
    certificate_bag(CERTIFICATE, attributes("server")),
    certificate_bag(CERTIFICATE, attributes("server")),
    certificate_bag(CERTIFICATE),
]))
write("content-pem.p12", outer_store(b"-----BEGIN CERTIFICATE-----\n"))
write("content-ber.p12", outer_store(b"\x30\x80\0\0"))
write("second-content.p12", outer_store(sequence(data(sequence(certificate_bag(CERTIFICATE))), data(octet_string(b"no bags")))))
write("hours.p12", store(sequence(data(sequence())), mac_data(bytes(20), b"salt", 99999990)))
write("more-hours.p12", store(sequence(data(sequence())), mac_data(bytes(20), b"salt", 4000000000)))
write("two-in-one.txt", b"p\nsecond line\n")


def without_password():
    """A store as certtool makes it with --null-password: the password has no octets at all, where the empty one has two."""
    import read_store

    whole = read_store.bmp_password
    read_store.bmp_password = lambda password: b""
    made = store_with_mac(sequence(data(sequence(certificate_bag(CERTIFICATE)))), "", b"salt", 2)
    read_store.bmp_password = whole
    return made


write("null-password.p12", without_password())


def counts_store(triple_des_key):
    """A store of keys under AES-256 whose counts are alike in runs of 1 to 6, one of them after the content that it is in, and one key
    under Triple DES."""
    from make_store import encrypt_pbes2, encrypted_data, key_bag, padded, pbes2

    def parameters(at, rounds):
        return at.to_bytes(8, "big"), rounds, None, "1.2.840.113549.2.9", "2.16.840.1.101.3.4.1.42", bytes(16)

    def sealed(at, rounds):
        under = parameters(at, rounds)
        return key_bag(pbes2(under), encrypt_pbes2(PASSWORD, under, padded(KEY, 16)))

    of_content = parameters(0, 2000)
    bags = padded(sequence(certificate_bag(CERTIFICATE), sealed(1, 2000), sealed(2, 7)), 16)
    counts = [1000, 1000, 2000, 2000, 2000, 2000, 2000, 2000, 1000]
    keys_of_counts = [sealed(3 + at, rounds) for at, rounds in enumerate(counts)]
    keys_of_counts.insert(4, triple_des_key)
    contents = [encrypted_data(pbes2(of_content), encrypt_pbes2(PASSWORD, of_content, bags)), data(sequence(*keys_of_counts)),
                data(sequence(sealed(20, 7), sealed(21, 7)))]
    return store_with_mac(sequence(*contents), PASSWORD, b"saltsalt", 1)


def keys():
    """Stores of many private keys, all but those of one encrypted alike in one round; they need the package `cryptography`."""
    from make_store import sealed_key

    sealed = sealed_key(KEY, PASSWORD, b"saltsalt", 1)
    write("many-keys.p12", plain_store([sealed] * 200))
    write("large-keys.p12", plain_store([sealed] * 60000))
    small = sealed_key(sequence(number(0), sequence(identifier("1.3.101.112")), octet_string(octet_string(b"k" * 32))), PASSWORD, b"saltsalt", 1)
    header = 2 if small[1] < 128 else 2 + small[1] % 128
    ids = [each.to_bytes(3, "big") for each in range(30000)]
    certificates = [certificate_bag(b"", attributes(None, each)) for each in ids]
    write("counts.p12", counts_store(sealed))
    write("pairs.p12", plain_store(certificates + [sequence(small[header:], attributes(None, each)) for each in reversed(ids)]))


try:
    keys()
except ImportError:
    pass
