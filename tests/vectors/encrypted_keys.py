#!/usr/bin/env python3
"""Writes known answers of encrypted private keys: documents of OpenSSL (RFC 5958 section 3) under the password `hunter42`.

Run at the top of the repository, with OpenSSL 3:

    python3 tests/vectors/encrypted_keys.py > tests/vectors/encrypted_keys.txt

Of each document the scheme and the ciphertext in it: the private key that these open to, and another password. Salts,
initialization vectors and keys are random: a new run writes others. Last run with OpenSSL 3.0.19.
"""

import subprocess

# the cipher, the hash function of HMAC, the rounds, and what `genpkey` is asked for
DOCUMENTS = [
    ("aes-128-cbc", "SHA1", 1000, "ED25519", []),
    ("aes-192-cbc", "SHA224", 2000, "X25519", []),
    ("aes-256-cbc", "SHA256", 2048, "RSA", ["rsa_keygen_bits:2048"]),
    ("aes-256-cbc", "SHA384", 1, "EC", ["ec_paramgen_curve:P-256"]),
    ("aes-128-cbc", "SHA512", 4096, "EC", ["ec_paramgen_curve:P-521"]),
    ("aes-192-cbc", "SHA256", 3, "ED25519", []),
]


def openssl(*words, text=b""):
    return subprocess.run(["openssl", *words], input=text, stdout=subprocess.PIPE, stderr=subprocess.DEVNULL, check=True).stdout


def element(text):
    """The first element, its value, and what stands behind it."""
    size, head = text[1], 2
    if size >= 128:
        head += size - 128
        size = int.from_bytes(text[2:head], "big")
    return text[:head + size], text[head:head + size], text[head + size:]


def document(key, document):
    scheme, _, behind = element(element(document)[1])
    ciphertext = element(behind)[1]
    password = b"hunter42".hex()
    print(f"pkcs5-scheme {scheme.hex()} = {scheme.hex()}")
    print(f"pkcs5-decrypt {scheme.hex()} {password} {ciphertext.hex()} = {key.hex()}")
    print(f"pkcs5-decrypt {scheme.hex()} {b'hunter43'.hex()} {ciphertext.hex()} = !DecryptFailed")
    print(f"pkcs5-encrypt {scheme.hex()} {password} {key.hex()} = {ciphertext.hex()}")


def main():
    print("# Known answers of encrypted private keys, written by tests/vectors/encrypted_keys.py.\n")
    print("# documents of OpenSSL: scheme, password, ciphertext or key")
    for cipher, function, rounds, algorithm, options in DOCUMENTS:
        print(f"# {algorithm}, {cipher}, {function}, {rounds} rounds")
        options = [word for option in options for word in ("-pkeyopt", option)]
        made = openssl("genpkey", "-algorithm", algorithm, *options)
        key = openssl("pkcs8", "-topk8", "-nocrypt", "-outform", "DER", text=made)
        sealing = ("-v2", cipher, "-v2prf", f"hmacWith{function}", "-iter", str(rounds), "-passout", "pass:hunter42")
        document(key, openssl("pkcs8", "-topk8", *sealing, "-outform", "DER", text=made))


if __name__ == "__main__":
    main()
