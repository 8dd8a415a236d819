#!/usr/bin/env python3
"""Writes known answers of encrypted private keys: what `openssl pkcs8 -topk8` makes under each of its ciphers and functions.

Run at the top of the repository, with OpenSSL 3 and its legacy provider:

    python3 tests/vectors/openssl_documents.py > tests/vectors/openssl_documents.txt

Of each document the scheme, and the private key that it opens to under the password `hunter42`; or the refusal, which the
tables below give. Salts, initialization vectors and keys are random: a new run writes others. Last run with OpenSSL 3.0.19.
"""

from encrypted_keys import element, openssl

PROVIDERS = ("-provider", "default", "-provider", "legacy")

# Ciphers of -v2, and the refusal of their scheme, if there is one. The parameters of RC2 are no OCTET STRING (RFC 8018
# appendix B.2.3); Camellia and ARIA are not among the ciphers that are read.
CIPHERS = {
    "aes-128-cbc": None,
    "aes-192-cbc": None,
    "aes-256-cbc": None,
    "des3": None,
    "des-cbc": None,
    "rc2-cbc": "!Malformed",
    "camellia-256-cbc": "!OidUnknown 1.2.392.200011.61.1.1.1.4",
    "aria-256-cbc": "!OidUnknown 1.2.410.200046.1.1.12",
}

# Functions of -v2prf, and the refusal of their scheme.
FUNCTIONS = {
    "hmacWithSHA1": None,
    "hmacWithSHA224": None,
    "hmacWithSHA256": None,
    "hmacWithSHA384": None,
    "hmacWithSHA512": None,
    "hmacWithSHA512-256": "!OidUnknown 1.2.840.113549.2.13",
    "hmacWithMD5": "!OidUnknown 1.2.840.113549.2.6",
}

# Costs of -scrypt (RFC 7914): N, r and p.
COSTS = [("2", "1", "1"), ("16", "8", "1"), ("128", "2", "3")]

# Schemes of -v1. Those of PBES1 are read and not opened; the others are not of PKCS#5.
OLD = {
    "PBE-MD5-DES": "!NoPbes1CryptSupport",
    "PBE-MD5-RC2-64": "!NoPbes1CryptSupport",
    "PBE-SHA1-DES": "!NoPbes1CryptSupport",
    "PBE-SHA1-RC2-64": "!NoPbes1CryptSupport",
    "PBE-SHA1-3DES": "!Malformed",
    "PBE-SHA1-RC4-128": "!Malformed",
}

# DES is read and opened; nothing is sealed under it.
DES = "!UnsupportedAlgorithm 1.3.14.3.2.7"


def document(made, key, refusal, sealing, *words):
    print("# " + " ".join(words))
    text = openssl("pkcs8", "-topk8", *words, "-passout", "pass:hunter42", "-outform", "DER", *PROVIDERS, text=made)
    scheme, _, behind = element(element(text)[1])
    ciphertext, password = element(behind)[1], b"hunter42".hex()
    read = scheme.hex() if refusal in (None, "!NoPbes1CryptSupport") else refusal
    print(f"pkcs5-scheme {scheme.hex()} = {read}")
    print(f"pkcs5-decrypt {scheme.hex()} {password} {ciphertext.hex()} = {refusal or key.hex()}")
    if refusal is None:
        print(f"pkcs5-encrypt {scheme.hex()} {password} {key.hex()} = {sealing or ciphertext.hex()}")


def main():
    print("# Known answers of encrypted private keys, written by tests/vectors/openssl_documents.py: each cipher under each function.\n")
    made = openssl("genpkey", "-algorithm", "ED25519")
    key = openssl("pkcs8", "-topk8", "-nocrypt", "-outform", "DER", text=made)
    for cipher, of_cipher in CIPHERS.items():
        sealing = DES if cipher == "des-cbc" else None
        for function, of_function in FUNCTIONS.items():
            # the function is read before the cipher
            document(made, key, of_function or of_cipher, sealing, "-v2", cipher, "-v2prf", function, "-iter", "2")
        for n, r, p in COSTS:
            words = ("-v2", cipher, "-scrypt", "-scrypt_N", n, "-scrypt_r", r, "-scrypt_p", p)
            document(made, key, of_cipher, sealing, *words)
    for scheme, refusal in OLD.items():
        document(made, key, refusal, None, "-v1", scheme, "-iter", "2")


if __name__ == "__main__":
    main()
