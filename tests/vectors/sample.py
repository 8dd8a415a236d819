#!/usr/bin/env python3
"""Writes what the command `sample` has to print for a number of keys.

Run at the top of the repository, with Python's `cryptography`:

    PYTHONPATH=tests python3 tests/vectors/sample.py 1 3

It makes the store and its documents by `make_store`, which shares no code with the program.
"""

import hashlib
import sys

from make_store import certificate_bag, data, sealed, sealed_document, sealed_key, sequence, store_with_mac

PASSWORD = "sample"
KEY_FRONT = bytes.fromhex("302e020100300506032b657004220420")


class Generator:
    def __init__(self, seed):
        self.state = seed

    def octets(self, count):
        taken = bytearray()
        for _ in range(count):
            self.state = (1103515245 * self.state + 12345) % 2**31
            taken.append(self.state // 65536 % 256)
        return bytes(taken)


def sample(keys):
    generator = Generator(keys)
    made = []
    for _ in range(keys):
        certificate = bytes.fromhex("30120410") + generator.octets(16)
        key = KEY_FRONT + generator.octets(32)
        made.append((certificate, key, generator.octets(8)))
    content_salt, mac_salt = generator.octets(8), generator.octets(8)
    drawn = [generator.octets(32) for _ in range(keys)]
    certificates = sequence(*[certificate_bag(certificate) for certificate, _, _ in made])
    bags = sequence(*[sealed_key(key, PASSWORD, salt, 1) for _, key, salt in made])
    contents = sequence(sealed(certificates, PASSWORD, content_salt, 1), data(bags))
    store = store_with_mac(contents, PASSWORD, mac_salt, 1)
    text = "".join(f"cert {certificate.hex()}\n" for certificate, _, _ in made)
    for (_, key, _), octets in zip(made, drawn):
        text += f"key {sealed_document(key, PASSWORD.encode(), 1, octets).hex()}\n"
    digest = hashlib.sha256(text.encode()).hexdigest()
    return f"keys {keys}\ncerts {keys}\nstore {len(store)}\nsteps {3 * keys + 4}\nsha256 {digest}\n"


for word in sys.argv[1:]:
    sys.stdout.write(sample(int(word)))
