"""create.py FOLDER: what create_pem makes, and refuses, of the keys and certificates in the folder, which tests/c_library.sh made."""

import base64
import pathlib
import sys
import pkcs12

folder = pathlib.Path(sys.argv[1])
rsa, locked, old, ec, ed, certificate, other = (
    (folder / f"{name}.pem").read_bytes() for name in ("rsa", "rsa-locked", "rsa-old", "ec", "ed", "rsa-cert", "ec-cert")
)


def block(label, octets):
    return f"-----BEGIN {label}-----\n".encode() + base64.encodebytes(octets) + f"-----END {label}-----\n".encode()


def octets_of(text):
    return base64.b64decode(b"".join(text.split(b"\n")[1:-2]))


def is_refused(number, *arguments, **named):
    try:
        pkcs12.create_pem(*arguments, **{"rounds": 1, **named})
    except pkcs12.Refused as refused:
        assert refused.number == number, (refused.number, number, named)
    else:
        raise AssertionError(f"{number} is due")


# In this order: the rounds, the passwords, the name, the text of the key, and the text of the certificates.
for rounds in (0, 100_000_001, 2**32 - 1):
    is_refused(2, b"", b"", b"\xff", rounds=rounds)
is_refused(22, b"", b"", b"\xff", name="\udcff")
is_refused(22, b"", b"", b"new", key_password=b"\xff", name="\udcff")
is_refused(38, b"", b"", b"new", name="\udcff")
for text in (b"", b"\0", b"key", certificate, rsa.replace(b"BEGIN", b"begin"), octets_of(rsa)):
    is_refused(31, text, b"", b"new")
for text in (rsa[:-30], rsa.replace(b"MII", b"M%I"), rsa.replace(b"END PRIVATE", b"END OTHER"), certificate[:-30]):
    is_refused(30, text, b"", b"new")
    is_refused(30, rsa, text, b"new")
is_refused(32, rsa + ec, b"", b"new")
is_refused(32, rsa + rsa, b"", b"new")
is_refused(33, block("PRIVATE KEY", b"key"), b"", b"new")
is_refused(33, block("PRIVATE KEY", b""), b"", b"new")
is_refused(33, block("RSA PRIVATE KEY", octets_of(ec)), b"", b"new")
is_refused(33, block("ENCRYPTED PRIVATE KEY", octets_of(rsa)), b"", b"new")
is_refused(11, block("OPENSSH PRIVATE KEY", b"key"), b"", b"new")
is_refused(8, locked, b"", b"new")
is_refused(34, locked, b"", b"new", key_password=b"wrong")
is_refused(15, locked, b"", b"new", key_password=b"p", limit=1)
for text in (b"", rsa, octets_of(certificate)):
    is_refused(35, rsa, text, b"new")
is_refused(11, rsa, block("TRUSTED CERTIFICATE", b"certificate"), b"new")
is_refused(36, rsa, block("CERTIFICATE", b"certificate"), b"new")
is_refused(36, rsa, certificate + block("CERTIFICATE", b""), b"new")
is_refused(37, rsa, other, b"new")
is_refused(37, ed, other + certificate, b"new")

# Other line ends and words around the blocks; a long password and a long name, with characters of two to four octets; what is empty.
long = "æ€😀" * 500
store = pkcs12.create_pem(b"words\n" + old.replace(b"\n", b" \r\n"), certificate + b"words", long.encode(), name=long, rounds=1)
plain = pkcs12.create_pem(rsa, certificate, b"", rounds=1)
assert pkcs12.open_pem(store, long.encode()) == pkcs12.open_pem(plain, b"")

# 10,000 certificates, each twice: of one the serial number is counted up at its end, since no signature is tested. Then too many.
der = bytearray(octets_of(certificate))
certificates = []
for number in range(25_000):
    der[-2:] = number.to_bytes(2, "big")
    certificates.append(bytes(der))
texts = [block("CERTIFICATE", octets) for octets in certificates]
many = certificate + b"".join(texts[:10_000])
made = pkcs12.open_pem(pkcs12.create_pem(rsa, many + many, b"new", rounds=1), b"new")
assert made.count("BEGIN CERTIFICATE") == len({octets_of(certificate), *certificates[:10_000]})
is_refused(21, rsa, certificate + b"".join(texts), b"new")
