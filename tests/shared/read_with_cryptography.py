#!/usr/bin/env python3
"""Prints the private key with its name, and the certificates, of a store as Python's cryptography reads it.

usage: read_with_cryptography.py STORE PASSWORD_FILE
"""

import sys

from cryptography.hazmat.primitives.serialization import Encoding, NoEncryption, PrivateFormat, pkcs12

store, password = (open(path, "rb").read() for path in sys.argv[1:])
opened = pkcs12.load_pkcs12(store, password.splitlines()[0])
print("name:", (opened.cert.friendly_name or b"").decode())
print(opened.key.private_bytes(Encoding.PEM, PrivateFormat.PKCS8, NoEncryption()).decode(), end="")
for each in [opened.cert, *opened.additional_certs]:
    print(each.certificate.public_bytes(Encoding.PEM).decode(), end="")
