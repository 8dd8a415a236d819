"""Writes stores with encrypted private keys, and what their transfer has to write, for tests/transfers.sh.

Run at the top of the repository, with OpenSSL 3 and the package `cryptography`:

    PYTHONPATH=tests python3 tests/vectors/transferred_keys.py

It writes tests/vectors/transferred_keys.txt. Each document is computed under the stated initialization vector and salt by
`make_store`, with Python's `hashlib` and `cryptography`. The last two stores are OpenSSL's, with random keys and salts: a new run
writes others. Last run with OpenSSL 3.0.19.
"""

import hashlib
import hmac
import subprocess
import tempfile
from pathlib import Path

from make_store import (
    NULL, certificate_bag, data, encrypt, encrypted_data, identifier, key_bag, number, octet_string, scheme, sealed, sealed_document,
    sealed_key, sequence, store, store_with_mac,
)
from read_store import SHA1

ROWS = Path("tests/vectors/transferred_keys.txt")

# A private key of Ed25519, and the octets of its secret.
SECRET = bytes.fromhex("17ed9c73e9db649ec189a612831c5fc570238207c1aa9dfbd2c53e3ff5e5ea85")
KEY = bytes.fromhex("302e020100300506032b657004220420") + SECRET
PUBLIC = bytes.fromhex("4d29167f3f1912a6f7adfa293a051a15c05ec67b8f17267b1c5550dce853bd0d")

CERTIFICATES = [bytes.fromhex("3000"), bytes.fromhex("30020500")]
SALTS = [bytes(range(start, start + 8)) for start in (0, 8, 16)]


def document(key, password, rounds, drawn):
    return sealed_document(key, password.encode(), rounds, drawn)


def store_of(bags, password):
    """A store of these bags in one plain content, under a MAC of one round."""
    return store_with_mac(sequence(data(sequence(*bags))), password, SALTS[2], 1)


def realistic():
    """Two certificates in an encrypted content, and a key; each of the three counts is 2,048."""
    bags = sequence(*[certificate_bag(certificate) for certificate in CERTIFICATES])
    key = sealed_key(KEY, "changeit", SALTS[0], 2048)
    return store_with_mac(sequence(sealed(bags, "changeit", SALTS[1], 2048), data(sequence(key))), "changeit", SALTS[2], 2048)


def published():
    """The first store of vectors/pkcs12_stores.txt: a key and its certificate, with two others."""
    line = next(it for it in Path("tests/vectors/pkcs12_stores.txt").read_text().splitlines() if it.startswith("pkcs12-store"))
    return bytes.fromhex(line.rpartition("= ")[2])


def derived(name, password, salt, count, purpose, size):
    """The derivation of RFC 7292 appendix B.2 over a hash with blocks of 64 octets, by numbers."""
    units = password.encode("utf-16-be") + bytes(2)

    def filled(octets):
        return (octets * 64)[: 64 * -(-len(octets) // 64)] if octets else b""

    blocks, answer = filled(salt) + filled(units), b""
    while len(answer) < size:
        digest = bytes([purpose]) * 64 + blocks
        for _ in range(count):
            digest = hashlib.new(name, digest).digest()
        answer += digest
        more = int.from_bytes((digest * 64)[:64], "big") + 1
        parts = [int.from_bytes(blocks[i : i + 64], "big") for i in range(0, len(blocks), 64)]
        blocks = b"".join(((part + more) % 2**512).to_bytes(64, "big") for part in parts)
    return answer[:size]


def mac_under(name, oid, contents, password, salt, count, written=True):
    """MAC data under this hash; the count may be left out."""
    size = hashlib.new(name).digest_size
    digest = hmac.digest(derived(name, password, salt, count, 3, size), contents, name)
    return sequence(sequence(sequence(identifier(oid), NULL), octet_string(digest)), octet_string(salt), number(count) if written else b"")


SHA_256, SHA_384 = "2.16.840.1.101.3.4.2.1", "2.16.840.1.101.3.4.2.2"
PRFS = {"sha1": "1.2.840.113549.2.7", "sha256": "1.2.840.113549.2.9", "sha512": "1.2.840.113549.2.11"}


def pbes2(password, plain, salt, count, prf="sha256", length=b""):
    """The PBES2 scheme of these parameters, and the text under it (RFC 8018 section 6.2)."""
    from cryptography.hazmat.primitives.ciphers import Cipher, algorithms, modes

    vector = bytes(reversed(salt)) + salt
    size = 16 - len(plain) % 16
    key = hashlib.pbkdf2_hmac(prf, password.encode(), salt, max(count, 1), 32)
    encryptor = Cipher(algorithms.AES(key), modes.CBC(vector)).encryptor()
    ciphertext = encryptor.update(plain + bytes([size]) * size) + encryptor.finalize()
    function = b"" if prf == "sha1" else sequence(identifier(PRFS[prf]), NULL)
    kdf = sequence(identifier("1.2.840.113549.1.5.12"), sequence(octet_string(salt), number(count), length, function))
    cipher = sequence(identifier("2.16.840.1.101.3.4.1.42"), octet_string(vector))
    return sequence(identifier("1.2.840.113549.1.5.13"), sequence(kdf, cipher)), ciphertext


def todays(prf="sha256", count=2048, length=b"", mac=("sha256", SHA_256), key_scheme=None):
    """A store in today's format: a certificate in a content under PBES2, a key under PBES2, a MAC under SHA-256."""
    scheme_of_key, ciphertext = pbes2("changeit", KEY, SALTS[0], count, prf, length)
    key = key_bag(key_scheme or scheme_of_key, ciphertext)
    content = encrypted_data(*pbes2("changeit", sequence(certificate_bag(CERTIFICATES[0])), SALTS[1], 2048))
    contents = sequence(content, data(sequence(key)))
    return store(contents, mac_under(*mac, contents, "changeit", SALTS[2], 2048))


def under_scrypt():
    """A scheme of PBES2 under scrypt (RFC 7914 section 7)."""
    kdf = sequence(identifier("1.3.6.1.4.1.11591.4.11"), sequence(octet_string(SALTS[0]), number(16384), number(8), number(1)))
    cipher = sequence(identifier("2.16.840.1.101.3.4.1.42"), octet_string(bytes(16)))
    return sequence(identifier("1.2.840.113549.1.5.13"), sequence(kdf, cipher))


def openssl(words=("-keypbe", "PBE-SHA1-3DES", "-certpbe", "PBE-SHA1-3DES", "-macalg", "sha1")):
    """A store of OpenSSL, its certificate and its key."""
    with tempfile.TemporaryDirectory() as folder:
        key, certificate, store, text = [f"{folder}/{name}" for name in ("key", "certificate", "store", "text")]

        def call(*words):
            subprocess.run(["openssl", *words], check=True, capture_output=True)

        call("req", "-x509", "-newkey", "ed25519", "-nodes", "-keyout", key, "-out", certificate, "-subj", "/CN=a", "-days", "9999")
        call(
            "pkcs12", "-export", "-inkey", key, "-in", certificate, "-name", "a", "-out", store, "-passout", "pass:changeit",
            *words,
        )
        call("pkcs8", "-topk8", "-nocrypt", "-in", key, "-outform", "DER", "-out", text)
        call("x509", "-in", certificate, "-outform", "DER", "-out", folder + "/certificate.der")
        return [Path(name).read_bytes() for name in (store, folder + "/certificate.der", text)]


def lines(certificates, documents):
    return "".join(f"cert {c.hex()}\n" for c in certificates) + "".join(f"key {d.hex()}\n" for d in documents)


def octets(first, count):
    return bytes(range(first, first + count))


def rows():
    """For each row its name, its words, the store, the second line or None, the status and the text that is due."""
    drawn = octets(0xA0, 32)
    whole = realistic()
    seal = document(KEY, "hunter42", 2048, drawn)
    due = lines(CERTIFICATES, [seal])
    assert len(seal) == 166 and seal.hex().startswith("3081a3305f06092a864886f70d01050d3052303106092a864886f70d01050c30240410b0b1")
    yield "three counts of 2,048", "changeit hunter42 2048 14336", whole, drawn, "Done", due
    yield "one step less", "changeit hunter42 2048 14335", whole, drawn, "WorkLimit", None
    yield "another password", "x hunter42 2048 14336", whole, drawn, "MacMismatch", None

    made, info = published(), bytes.fromhex("302a300506032b6570032100") + PUBLIC
    assert len(made) == 578
    due = lines([info, *CERTIFICATES], [seal])
    yield "a certificate, its key and two others", "changeit hunter42 2048 14336", made, drawn, "Done", due
    yield "the same, one step less", "changeit hunter42 2048 14335", made, drawn, "WorkLimit", None
    yield "the same, another password", "x hunter42 2048 14336", made, drawn, "MacMismatch", None

    two = store_of([sealed_key(KEY, "p", SALTS[0], 1), certificate_bag(CERTIFICATES[0]), sealed_key(KEY, "p", SALTS[1], 2)], "p")
    more = octets(0x40, 64)
    both = [document(KEY, "q", 3, more[:32]), document(KEY, "q", 3, more[32:])]
    yield "two keys", "p q 3 99", two, more, "Done", lines(CERTIFICATES[:1], both)
    yield "one octet too few", "p q 3 99", two, more[:63], "Rng", None
    yield "a second line of no octets", "p q 3 99", two, b"", "Rng", None

    # Keys are sealed four at a time: here are one group of four, and two with one or three keys left.
    for many in (4, 9, 11):
        keys = [KEY[:-1] + bytes([at]) for at in range(many)]
        whole_of = store_of([sealed_key(key, "p", SALTS[0], 1) for key in keys], "p")
        more = bytes(at * 7 % 251 for at in range(32 * many))
        seals = [document(key, "q", 3, more[32 * at : 32 * at + 32]) for at, key in enumerate(keys)]
        yield f"{many} keys", "p q 3 99", whole_of, more, "Done", lines([], seals)
        yield f"{many} keys and one octet too few", "p q 3 99", whole_of, more[:-1], "Rng", None

    def of(key, name, status="Done", opened=KEY, rounds=1):
        text = lines([], [document(opened, "q", rounds, drawn)]) if status == "Done" else None
        return name, f"p q {rounds} 9", store_of([sealed_key(key, "p", SALTS[0], 1)], "p"), drawn, status, text

    head = bytes.fromhex("300506032b657004220420") + SECRET
    yield of(bytes.fromhex("3032020100") + head + bytes.fromhex("a0008200"), "a key with attributes and a further field")
    yield of(bytes.fromhex("302e020101") + head, "a key of version 2 without a public key", "KeyMalformed")
    public = bytes.fromhex("3051020101") + head + bytes.fromhex("812100") + PUBLIC
    assert len(document(public, "q", 2048, drawn)) == 198
    yield of(public, "a key with its public key", "Done", public, 2048)

    nine = encrypt("p", SALTS[0], 1, bytes([9]) * 16)
    for name, blocks in (("seven octets", bytes(7)), ("no octets", b""), ("a padding of nine", nine)):
        yield f"{name} in a key bag", "p q 1 9", store_of([key_bag(scheme(SALTS[0], 1), blocks)], "p"), drawn, "DecryptFailed", None

    seal = document(KEY, "hunter42", 2048, drawn)
    one = lines(CERTIFICATES[:1], [seal])
    yield "today's format: three counts of 2,048", "changeit hunter42 2048 6144", todays(), drawn, "Done", one
    yield "today's format, one step less", "changeit hunter42 2048 6143", todays(), drawn, "WorkLimit", None
    yield "a key under HMAC-SHA1, two answers a round", "changeit hunter42 2048 8192", todays("sha1"), drawn, "Done", one
    yield "the same, one step less", "changeit hunter42 2048 8191", todays("sha1"), drawn, "WorkLimit", None
    yield "a key under HMAC-SHA512, its length stated", "changeit hunter42 2048 6144", todays("sha512", 2048, number(32)), drawn, "Done", one
    yield "another length of the key", "changeit hunter42 2048 9999", todays("sha256", 2048, number(16)), drawn, "Unsupported", None
    yield "a key under scrypt", "changeit hunter42 2048 9999", todays(key_scheme=under_scrypt()), drawn, "Unsupported", None
    yield "a key of no rounds", "changeit hunter42 2048 9999", todays(count=0), drawn, "ZeroIterations", None
    yield "a MAC under SHA-384", "changeit hunter42 2048 9999", todays(mac=("sha384", SHA_384)), drawn, "MacUnsupported", None
    yield "today's format, another password", "x hunter42 2048 9999", todays(), drawn, "MacMismatch", None
    contents = sequence(data(sequence(certificate_bag(CERTIFICATES[0]))))
    bare = store(contents, mac_under("sha1", SHA1, contents, "p", SALTS[2], 1, False))
    yield "a MAC with no count", "p q 1 1", bare, b"", "Done", lines(CERTIFICATES[:1], [])

    other = bare.replace(number(3), number(0), 1)
    yield "a store of version 0", "p q 1 1", other, b"", "Done", lines(CERTIFICATES[:1], [])
    yield "4,097 rounds", "changeit hunter42 4097 14336", whole, drawn, "Done", lines(CERTIFICATES, [document(KEY, "hunter42", 4097, drawn)])
    old, new = "p" * 1000, "q" * 1024
    long = store_of([sealed_key(KEY, old, SALTS[0], 1)], old)
    yield "passwords of 1,000 and 1,024 octets", f"{old} {new} 1 4", long, drawn, "Done", lines([], [document(KEY, new, 1, drawn)])

    made, certificate, key = openssl(())
    yield "a store of OpenSSL 3 by default", "changeit q 5 6144", made, drawn, "Done", lines([certificate], [document(key, "q", 5, drawn)])
    made, certificate, key = openssl()
    yield "a store of OpenSSL", "changeit q 5 14336", made, drawn, "Done", lines([certificate], [document(key, "q", 5, drawn)])


HEAD = """# Stores with encrypted private keys, and what their transfer has to write. Made by transferred_keys.py, which says how.
# name|the program's words|its input|status|the text that is due; an empty word is -
"""


def main():
    text = HEAD
    for name, words, whole, line, status, due in rows():
        due = f"error: {status}\n" if due is None else due
        fields = name, f"transfer {words}", f"{whole.hex()}\n{line.hex()}\n", status, due
        text += "|".join(fields).replace("\n", "\\n") + "\n"
    ROWS.write_text(text)


main()
