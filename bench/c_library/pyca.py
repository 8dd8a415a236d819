"""pyca.py STORE PASSWORD-FILE CALLS: the same by Python's cryptography, whose rounds of sealing are its own."""
import sys
import time

from cryptography.hazmat.primitives.serialization import BestAvailableEncryption, Encoding, PrivateFormat, pkcs12

with open(sys.argv[1], "rb") as file:
    store = file.read()
with open(sys.argv[2], "rb") as file:
    password = file.read().rstrip(b"\r\n")
calls = int(sys.argv[3])
start = time.process_time()
for _ in range(calls):
    key, certificate, more = pkcs12.load_key_and_certificates(store, password)
    text = b"".join(each.public_bytes(Encoding.PEM) for each in [certificate, *more] if each)
    if key:
        text += key.private_bytes(Encoding.PEM, PrivateFormat.PKCS8, BestAvailableEncryption(b"hunter42"))
print(round(1e6 * (time.process_time() - start) / calls))
