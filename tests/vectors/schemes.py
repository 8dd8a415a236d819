#!/usr/bin/env python3
"""Writes known answers of PBES2 (RFC 8018): texts that Python's hashlib and cryptography seal under a password.

Run at the top of the repository, with the package `cryptography`:

    python3 tests/vectors/schemes.py > tests/vectors/schemes.txt

Schemes are written here part by part, but for those of `OPENSSL`: these are what `openssl pkcs8 -topk8 -v2 CIPHER
-v2prf PRF -iter ROUNDS` of OpenSSL 3.0.19 wrote, each with what it was asked to be. Last run with Python 3.11.7 and
cryptography 48.0.0; a new run writes the same file.
"""

import hashlib

from cryptography.hazmat.primitives import padding
from cryptography.hazmat.primitives.ciphers import Cipher, algorithms, modes
from cryptography.hazmat.primitives.ciphers.aead import AESGCM

FUNCTIONS = {"sha1": 7, "sha224": 8, "sha256": 9, "sha384": 10, "sha512": 11}
CIPHERS = {16: 2, 24: 22, 32: 42}
IV = bytes(range(16, 32))
KEY = bytes.fromhex(
    "302e020100300506032b65700422042017ed9c73e9db649ec189a612831c5fc570238207c1aa9dfbd2c53e3ff5e5ea85"
)

# the size of the key, the function, the rounds, the text
OPENSSL = [
    (16, "sha1", 1, "304806092a864886f70d01050d303b301a06092a864886f70d01050c300d0408ca945bfc93ea1b47020101301d060960864801650304010204105d159e66df94016b84d79b61900b1055"),
    (16, "sha384", 1, "305606092a864886f70d01050d3049302806092a864886f70d01050c301b040889a0a7d71e8e4fbe020101300c06082a864886f70d020a0500301d06096086480165030401020410759ea9f66eaa5e7eab6eb7f75ecd5fda"),
    (24, "sha224", 600_000, "305806092a864886f70d01050d304b302a06092a864886f70d01050c301d0408b09c7f9d940ff14102030927c0300c06082a864886f70d02080500301d060960864801650304011604100eb4fc12486c9e0ad57e14fb9211437b"),
    (24, "sha512", 1, "305606092a864886f70d01050d3049302806092a864886f70d01050c301b0408ae99d7411a1682de020101300c06082a864886f70d020b0500301d06096086480165030401160410bfb8eda6f1d3e3de0faabdc461ce39bc"),
    (32, "sha256", 600_000, "305806092a864886f70d01050d304b302a06092a864886f70d01050c301d04088908540dad111b7102030927c0300c06082a864886f70d02090500301d060960864801650304012a0410730ab7eb7e4b6eed4079fee46b3cebd2"),
    (32, "sha512", 600_000, "305806092a864886f70d01050d304b302a06092a864886f70d01050c301d04087c7fd947aaaa8d6902030927c0300c06082a864886f70d020b0500301d060960864801650304012a0410718a08e012aa1899f115ea36ed23027b"),
]

# the function, the rounds, the salt, the size of the key, the text
TEXTS = [
    ("sha1", 1000, b"saltSALT", 16, b""),
    ("sha1", 1, b"", 32, b"fifteen octets."),
    ("sha224", 3, bytes(range(32)), 24, b"sixteen octets.."),
    ("sha256", 100, b"NaCl", 16, b"seventeen octets."),
    ("sha384", 7, b"sea salt", 24, KEY),
    ("sha512", 50, b"rock salt", 32, b"a" * 31),
    ("sha512", 2, b"rock salt", 16, b"text"),
    ("sha224", 2, b"s", 32, b"text"),
    ("sha384", 2, b"s", 16, b"text"),
]


def word(octets):
    return octets.hex() or "-"


def element(tag, *parts):
    content = b"".join(parts)
    assert len(content) < 128
    return bytes([tag, len(content)]) + content


def number(n):
    return element(2, n.to_bytes(n.bit_length() // 8 + 1, "big"))


def identifier(digits):
    return element(6, bytes.fromhex(digits))


def scheme(function, rounds, salt, size, iv, stated=None, null=True, default=False):
    """A scheme's text. HMAC over SHA-1 is left out, as DER wants it, but where `default` says otherwise."""
    prf = element(0x30, identifier("2a864886f70d02%02x" % FUNCTIONS[function]), b"\x05\x00" if null else b"")
    if function == "sha1" and not default:
        prf = b""
    length = number(stated) if stated else b""
    kdf = element(0x30, identifier("2a864886f70d01050c"), element(0x30, element(4, salt), number(rounds), length, prf))
    cipher = element(0x30, identifier("60864801650304%02x%02x" % (1, CIPHERS[size])), element(4, iv))
    return element(0x30, identifier("2a864886f70d01050d"), element(0x30, kdf, cipher))


def padded(text):
    padder = padding.PKCS7(128).padder()
    return padder.update(text) + padder.finalize()


def blocks(function, rounds, salt, size, iv, password, text):
    """What whole blocks are encrypted to."""
    key = hashlib.pbkdf2_hmac(function, password, salt, rounds, size)
    encryptor = Cipher(algorithms.AES(key), modes.CBC(iv)).encryptor()
    return encryptor.update(text) + encryptor.finalize()


def sealed(function, rounds, salt, size, iv, password, text):
    return blocks(function, rounds, salt, size, iv, password, padded(text))


def opens(text, password, ciphertext, answer):
    print(f"pkcs5-decrypt {word(text)} {word(password)} {word(ciphertext)} = {answer}")


def both(text, password, ciphertext, plain):
    opens(text, password, ciphertext, word(plain))
    print(f"pkcs5-encrypt {word(text)} {word(password)} {word(plain)} = {word(ciphertext)}")


def written(text, answer):
    print(f"pkcs5-scheme {word(text)} = {word(answer)}")


print("# Known answers of PBES2 (RFC 8018), written by tests/vectors/schemes.py.")

print("\n# schemes of OpenSSL, and a text under each by Python's hashlib and cryptography")
for size, function, rounds, digits in OPENSSL:
    text = bytes.fromhex(digits)
    salt, iv = text[text.index(b"\x04\x08") + 2:][:8], text[-16:]
    assert text == scheme(function, rounds, salt, size, iv)
    written(text, text)
    opens(text, b"swordfish", sealed(function, rounds, salt, size, iv, b"swordfish", b"a text"), word(b"a text"))

print("\n# each function and each cipher, by Python's hashlib and cryptography: scheme, password, text")
for function, rounds, salt, size, plain in TEXTS:
    text = scheme(function, rounds, salt, size, IV)
    ciphertext = sealed(function, rounds, salt, size, IV, b"swordfish", plain)
    both(text, b"swordfish", ciphertext, plain)
    opens(text, b"swordfish", ciphertext[:-1], "!DecryptFailed")

print("\n# a private key, other lengths, passwords and paddings")
parts = ("sha256", 2048, bytes.fromhex("79d982e70df91a88"), 32, bytes.fromhex("b2d02d78b2efd9dff694cf8e0af40925"))
ciphertext = sealed(*parts, b"hunter42", KEY)
both(scheme(*parts), b"hunter42", ciphertext, KEY)
both(scheme(*parts, stated=32), b"hunter42", ciphertext, KEY)
invalid = "!AlgorithmParametersInvalid 1.2.840.113549.1.5.12"
opens(scheme(*parts, stated=16), b"hunter42", ciphertext, invalid)
print(f"pkcs5-encrypt {word(scheme(*parts, stated=16))} {word(b'hunter42')} {word(KEY)} = {invalid}")
opens(scheme(*parts), b"hunter43", ciphertext, "!DecryptFailed")
for size in (0, 15, 17):
    opens(scheme(*parts), b"hunter42", ciphertext[:size], "!DecryptFailed")
for plain in (b"a text in which\2", b" text ending in\0", bytes(15) + b"\x11"):
    opens(scheme(*parts), b"hunter42", blocks(*parts, b"hunter42", plain), "!DecryptFailed")

print("\n# schemes in one spelling: a function without NULL, HMAC over SHA-1 by its name, a stated length")
parts = ("sha256", 2048, bytes.fromhex("0c12aa39d743d1633ddbb615a5ec1b6a"), 32, bytes.fromhex("baba52272b5a30263d62f81ae27ad768"))
written(scheme(*parts, null=False), scheme(*parts))
written(scheme(*parts), scheme(*parts))
parts = ("sha1", 2048, bytes(range(8)), 32, bytes(range(0xA0, 0xB0)))
for other in ({}, {"default": True}, {"default": True, "null": False}):
    written(scheme(*parts, **other), scheme(*parts))
parts = ("sha256", 2048, bytes(range(8)), 16, bytes(range(0xA0, 0xB0)))
written(scheme(*parts, stated=16), scheme(*parts, stated=16))

# ---- other functions and ciphers

HUNTER = b"hunter42"
# a scheme of Python's cryptography or OpenSSL, and what it seals the key to
OTHERS = [
    ("304f06092a864886f70d01050d3042302106092b06010401da47040b30140408e6211e2348ad69e002024000020108020101301d060960864801650304012a04109bd0a6251f2254f9fd5963887c27cf01",
     "cc62ba773c0f495fab3668e4fcefcdb08e78a0ee15e0a15013f62abe08daa742065eeb366d6e6c98cc3b0e7e69bdc861c88afeb8f03dba1e2c6d99d06d17360c"),
    ("304e06092a864886f70d01050d3041302906092a864886f70d01050c301c040832a0ae2e01bbe32902020800300c06082a864886f70d02090500301406082a864886f70d0307040897e8f53ab0aca359",
     "2d8e4cba271a1d33659426883bb7b405d5cffc64aee868ab0b5774b88c12056fec6cae1d9a12dde51140dfd799d825acd592172763866f93"),
]
BY_DES = ("304b06092a864886f70d01050d303e302906092a864886f70d01050c301c040809e7edfbd9f21e2b02020800300c06082a864886f70d02090500301106052b0e0302070408f4aaf206a18de7ad",
          "fe9bb48dbeb61112a44cd9a20870caea642b4d3110ae7783022b4e3a84cc9f793e4e3893840181fbc63d75297b416a0b96cb7f9ab45ceaba")
AES_256 = "60864801650304%02x%02x" % (1, 42)
GCM = {16: "60864801650304%02x%02x" % (1, 6), 32: "60864801650304%02x%02x" % (1, 46)}
NONCE = bytes(range(0xA0, 0xAC))


def by_scrypt(salt, cost, block_size, pieces, cipher, iv, stated=None):
    """A scheme's text under scrypt."""
    length = number(stated) if stated else b""
    params = element(0x30, element(4, salt), number(cost), number(block_size), number(pieces), length)
    kdf = element(0x30, identifier("2b06010401da47040b"), params)
    cipher = element(0x30, identifier(cipher), element(4, iv))
    return element(0x30, identifier("2a864886f70d01050d"), element(0x30, kdf, cipher))


def by_gcm(salt, rounds, size):
    """A scheme's text under PBKDF2 with SHA-256, and AES in Galois counter mode."""
    prf = element(0x30, identifier("2a864886f70d0209"), b"\x05\x00")
    kdf = element(0x30, identifier("2a864886f70d01050c"), element(0x30, element(4, salt), number(rounds), prf))
    cipher = element(0x30, identifier(GCM[size]), element(4, NONCE))
    return element(0x30, identifier("2a864886f70d01050d"), element(0x30, kdf, cipher))


def pbes1(last, salt, rounds):
    parameters = element(0x30, element(4, salt), number(rounds))
    return element(0x30, identifier("2a864886f70d0105%02x" % last), parameters)


print("\n# the key under scrypt, Triple DES and DES, by Python's cryptography and OpenSSL; DES seals nothing")
for digits, sealed_digits in OTHERS:
    text, ciphertext = bytes.fromhex(digits), bytes.fromhex(sealed_digits)
    written(text, text)
    both(text, HUNTER, ciphertext, KEY)
text, ciphertext = bytes.fromhex(BY_DES[0]), bytes.fromhex(BY_DES[1])
written(text, text)
opens(text, HUNTER, ciphertext, word(KEY))
print(f"pkcs5-encrypt {word(text)} {word(HUNTER)} {word(KEY)} = !UnsupportedAlgorithm 1.3.14.3.2.7")

print("\n# Galois counter mode, under PBKDF2 and scrypt, by Python's hashlib and cryptography")
for size in (16, 32):
    for plain in (b"", b"sixteen octets..", KEY):
        text = by_gcm(b"saltSALT", 3, size)
        ciphertext = AESGCM(hashlib.pbkdf2_hmac("sha256", HUNTER, b"saltSALT", 3, size)).encrypt(NONCE, plain, None)
        both(text, HUNTER, ciphertext, plain)
        opens(text, HUNTER, ciphertext[:-1] + bytes([ciphertext[-1] ^ 1]), "!DecryptFailed")
        opens(text, HUNTER, ciphertext[:15], "!DecryptFailed")
    text = by_scrypt(b"salt", 16, 1, 1, GCM[size], NONCE, stated=size)
    key = hashlib.scrypt(HUNTER, salt=b"salt", n=16, r=1, p=1, dklen=size)
    written(text, text)
    both(text, HUNTER, AESGCM(key).encrypt(NONCE, b"a text", None), b"a text")

print("\n# costs that scrypt refuses, and a stated length that is not the cipher's")
for cost, block_size, pieces, stated in ((0, 8, 1, None), (1, 8, 1, None), (3, 8, 1, None), (2**16, 1, 1, None),
                                         (16, 0, 1, None), (16, 1, 0, None), (16, 65_535, 16_385, None), (16, 1, 1, 16)):
    text = by_scrypt(b"salt", cost, block_size, pieces, AES_256, IV, stated=stated)
    written(text, text)
    opens(text, HUNTER, bytes(16), "!AlgorithmParametersInvalid 1.3.6.1.4.1.11591.4.11")

print("\n# schemes of PBES1 are read and written; nothing is opened or sealed under them")
for last in (1, 3, 4, 6, 10, 11):
    text = pbes1(last, bytes(range(8)), 2048)
    written(text, text)
    opens(text, HUNTER, bytes(16), "!NoPbes1CryptSupport")
    print(f"pkcs5-encrypt {word(text)} {word(HUNTER)} {word(KEY)} = !NoPbes1CryptSupport")
for text in (pbes1(2, bytes(range(8)), 2048), pbes1(3, bytes(range(7)), 1), pbes1(3, bytes(range(9)), 1), pbes1(3, bytes(range(8)), 65_536)):
    print(f"pkcs5-scheme {word(text)} = !Malformed")
