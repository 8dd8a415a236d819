#!/usr/bin/env python3
"""Makes a store as Python's cryptography does: by default, or under Triple DES with a MAC of SHA-1.

usage: make_with_cryptography.py default|triple-des NAME KEY.pem CERTIFICATE.pem CHAIN.pem PASSWORD_FILE STORE
"""

import sys

from cryptography import x509
from cryptography.hazmat.primitives import hashes
from cryptography.hazmat.primitives.serialization import BestAvailableEncryption, PrivateFormat, load_pem_private_key, pkcs12

kind, name, *paths, store = sys.argv[1:]
key, certificate, chain, password = (open(path, "rb").read() for path in paths)
password = password.splitlines()[0]
encryption = BestAvailableEncryption(password)
if kind == "triple-des":
    builder = PrivateFormat.PKCS12.encryption_builder().kdf_rounds(7).hmac_hash(hashes.SHA1())
    encryption = builder.key_cert_algorithm(pkcs12.PBES.PBESv1SHA1And3KeyTripleDESCBC).build(password)
made = pkcs12.serialize_key_and_certificates(
    name.encode(),
    load_pem_private_key(key, None),
    x509.load_pem_x509_certificate(certificate),
    x509.load_pem_x509_certificates(chain),
    encryption,
)
open(store, "wb").write(made)
