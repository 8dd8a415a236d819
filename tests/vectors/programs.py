"""Writes arguments, inputs and what is due for the programs rekey, inventory and passdb, for tests/programs.sh.

Run at the top of the repository, with the package `cryptography`:

    PYTHONPATH=tests python3 tests/vectors/programs.py

It writes tests/vectors/programs.txt. Stores are built, and sealed anew under the stated octets, by `make_store`; password hashes are
Python's `hashlib`; fingerprints are of the public keys as `cryptography` writes them.
"""

import base64
import datetime
import hashlib
from pathlib import Path

from make_store import (
    certificate_bag, data, element, encrypt, encrypt_pbes2, encrypted_data, identifier, key_bag, octet_string, padded, pbes2, sealed,
    sealed_key, sequence, store_with_mac,
)
from read_store import mac_of, triple_des

ROWS = Path("tests/vectors/programs.txt")

SECRET = bytes.fromhex("17ed9c73e9db649ec189a612831c5fc570238207c1aa9dfbd2c53e3ff5e5ea85")
KEY = bytes.fromhex("302e020100300506032b657004220420") + SECRET
PUBLIC = bytes.fromhex("4d29167f3f1912a6f7adfa293a051a15c05ec67b8f17267b1c5550dce853bd0d")
SALTS = [bytes(range(start, start + 8)) for start in (0, 8, 16)]


def octets(first, count):
    return bytes(range(first, first + count))


def store_input(text, drawn=None):
    return text.hex() + "\\n" + ("" if drawn is None else drawn.hex() + "\\n")


def error(name):
    return f"error: {name}\\n"


# ---- stores


def attributes(name=None, key_id=None):
    parts = []
    if name is not None:
        parts.append(sequence(identifier("1.2.840.113549.1.9.20"), element(0x31, element(0x1E, name.encode("utf-16-be")))))
    if key_id is not None:
        parts.append(sequence(identifier("1.2.840.113549.1.9.21"), element(0x31, octet_string(key_id))))
    return element(0x31, b"".join(parts)) if parts else b""


def keyed(bag, name=None, key_id=None):
    """The bag with attributes: they are the last part of its sequence."""
    size = 2 + (bag[1] - 128 if bag[1] >= 128 else 0)
    return sequence(bag[size:] + attributes(name, key_id))


def triple_des_store(password, certificate_bags, key_id):
    """Certificates and a key under Triple DES and a MAC under SHA-1, each of 2,048 rounds."""
    bag = keyed(sealed_key(KEY, password, SALTS[0], 2048), "look", key_id)
    contents = sequence(sealed(sequence(*certificate_bags), password, SALTS[1], 2048), data(sequence(bag)))
    return store_with_mac(contents, password, SALTS[2], 2048)


def published():
    """The first store of vectors/pkcs12_stores.txt: a key and its certificate, with two others."""
    line = next(it for it in Path("tests/vectors/pkcs12_stores.txt").read_text().splitlines() if it.startswith("pkcs12-store"))
    return bytes.fromhex(line.rpartition("= ")[2])


PBES2_FUNCTION, AES_256 = "1.2.840.113549.2.9", "2.16.840.1.101.3.4.1.42"


def modern_store(password, drawn, rounds):
    """A certificate and a key under PBES2, the octets for each being its vector and then its salt, and a MAC under SHA-1."""
    own, of_key, salt = drawn[:32], drawn[32:64], drawn[64:72]

    def parameters(pair):
        return (pair[16:], rounds, None, PBES2_FUNCTION, AES_256, pair[:16])

    def under(pair, text):
        return pbes2(parameters(pair)), encrypt_pbes2(password, parameters(pair), padded(text, 16))

    content = encrypted_data(*under(own, sequence(certificate_bag(b"\x30\x00"))))
    contents = sequence(content, data(sequence(key_bag(*under(of_key, KEY)))))
    return store_with_mac(contents, password, salt, 3)


# ---- rekey


def rekeyed(password, salts):
    """The first store of vectors/pkcs12_stores.txt under another password: its content, its key and its MAC sealed under these salts."""
    old = published()
    def opened(salt, ciphertext):
        decryptor = triple_des("changeit", salt, 2048).decryptor()
        return decryptor.update(ciphertext) + decryptor.finalize()

    text = old
    # Its salts are 08 .. 0f, 00 .. 07 and 10 .. 17, each before two octets of tag and length or more of a count.
    for was, new in zip((SALTS[1], SALTS[0]), salts):
        at = text.index(b"\x04\x08" + was) + 2
        tag = {SALTS[1]: 0x80, SALTS[0]: 0x04}[was]
        start = at + 8 + 4
        assert text[start - 4 : start] == bytes.fromhex("02020800") and text[start] == tag
        size, begin = (text[start + 2], start + 3) if text[start + 1] == 0x81 else (text[start + 1], start + 2)
        blocks = opened(was, text[begin : begin + size])
        text = text[:at] + new + text[at + 8 : begin] + encrypt(password, new, 2048, blocks) + text[begin + size :]
    at = text.rindex(b"\x04\x08" + SALTS[2]) + 2
    begin = text.index(sequence(identifier("1.2.840.113549.1.7.1"))[2:]) + 11
    inner = text[begin:]
    # [0] and OCTET STRING, both of two octets of length.
    assert inner[:2] == b"\xa0\x82" and inner[4:6] == b"\x04\x82"
    size = int.from_bytes(inner[6:8], "big")
    contents = inner[8 : 8 + size]
    digest = mac_of(password, salts[2], 2048, contents)
    return text[: at - 24] + b"\x04\x14" + digest + b"\x04\x08" + salts[2] + text[at + 8 :]


def rekey_rows():
    first = published()
    drawn = octets(0x40, 24)
    changed = rekeyed("newpass", [drawn[:8], drawn[8:16], drawn[16:]])
    last = octets(0x58, 24)
    twice = rekeyed("b", [last[:8], last[8:16], last[16:]])
    words = "rekey 14336 changeit newpass"
    yield "a store under a new password", words, store_input(first, drawn), "Done", f"store {changed.hex()}\\n"
    yield "the changed store opens under the new password", "rekey 14336 newpass changeit", store_input(changed, octets(8, 8) + octets(0, 8) + octets(16, 8)), "Done", f"store {first.hex()}\\n"
    yield "the changed store under the old password", "rekey 14336 changeit a", store_input(changed, drawn), "MacMismatch", error("MacMismatch")
    yield "one drawn octet too few", words, store_input(first, drawn[:-1]), "Rng", error("Rng")
    yield "one drawn octet more", words, store_input(first, drawn + b"\x00"), "Done", f"store {changed.hex()}\\n"
    yield "one step less than the store takes", "rekey 14335 changeit newpass", store_input(first, drawn), "WorkLimit", error("WorkLimit")
    yield "two changes", "rekey 14336 changeit a b", store_input(first, octets(0x40, 48)), "Done", f"store {twice.hex()}\\n"
    yield "two changes, one drawn octet too few", "rekey 14336 changeit a b", store_input(first, octets(0x40, 47)), "Rng", error("Rng")
    yield "a wrong password", "rekey 14336 x newpass", store_input(first, drawn), "MacMismatch", error("MacMismatch")
    modern, anew = modern_store("p", octets(0, 72), 1000), modern_store("q", octets(0x80, 72), 1000)
    yield "PBES2 keeps its count", "rekey 9999 p q", store_input(modern, octets(0x80, 72)), "Done", f"store {anew.hex()}\\n"
    yield "PBES2, one drawn octet too few", "rekey 9999 p q", store_input(modern, octets(0x80, 71)), "Rng", error("Rng")
    yield "one password", "rekey 9 x", store_input(first), "Usage", error("Usage")
    yield "no arguments", "", store_input(first), "Usage", error("Usage")
    yield "another program", "inventory 14336 changeit newpass", store_input(first), "Usage", error("Usage")
    yield "18 passwords", "rekey 14336 changeit" + " a" * 17, store_input(first), "Usage", error("Usage")
    yield "17 passwords, an empty input", "rekey 14336 changeit" + " a" * 16, "", "Malformed", error("Malformed")
    yield "a password of 1,025 octets", "rekey 14336 changeit " + "a" * 1025, store_input(first), "Usage", error("Usage")
    yield "a password of 1,024 octets", "rekey 14336 " + "a" * 1024 + " b", store_input(first), "MacMismatch", error("MacMismatch")
    yield "an empty password", "rekey 14336 ~ b", store_input(first), "MacMismatch", error("MacMismatch")
    yield "a limit with a leading zero", "rekey 014336 changeit b", store_input(first), "Usage", error("Usage")
    yield "a limit of 2^64", "rekey 18446744073709551616 changeit b", store_input(first), "Usage", error("Usage")
    yield "an odd number of digits", words, first.hex() + "0\\n", "InputMalformed", error("InputMalformed")
    yield "three lines", words, store_input(first, drawn) + "00\\n", "InputMalformed", error("InputMalformed")


# ---- inventory


def plain_certificate(issuer, subject, more=b""):
    """The least that is a certificate: the serial number 1, the algorithm Ed25519, no validity; and the fingerprint of its key."""
    algorithm = sequence(identifier("1.3.101.112"))
    key = sequence(algorithm, element(0x03, b"\0" + PUBLIC))
    signed = sequence(element(0x02, b"\x01"), algorithm, issuer, sequence(), subject, key, more)
    return sequence(signed, algorithm, element(0x03, b"\0")), hashlib.sha256(key).hexdigest()


def name(text):
    return sequence(element(0x31, sequence(identifier("2.5.4.3"), element(0x0C, text.encode()))))


def signed_certificate(subject, issuer, secret, by):
    """A certificate of Ed25519, and the fingerprint of its key."""
    from cryptography import x509
    from cryptography.hazmat.primitives import serialization
    from cryptography.hazmat.primitives.asymmetric.ed25519 import Ed25519PrivateKey

    key, signer = (Ed25519PrivateKey.from_private_bytes(bytes([it]) * 32) for it in (secret, by))
    names = [x509.Name([x509.NameAttribute(x509.NameOID.COMMON_NAME, it)]) for it in (subject, issuer)]
    made = (
        x509.CertificateBuilder().subject_name(names[0]).issuer_name(names[1]).public_key(key.public_key()).serial_number(secret)
        .not_valid_before(datetime.datetime(2026, 1, 1)).not_valid_after(datetime.datetime(2056, 1, 1))
        .add_extension(x509.BasicConstraints(True, None), True).sign(signer, None)
    )
    spki = key.public_key().public_bytes(serialization.Encoding.DER, serialization.PublicFormat.SubjectPublicKeyInfo)
    return made.public_bytes(serialization.Encoding.DER), hashlib.sha256(spki).hexdigest()


def store_of(bags):
    """A store of these bags in one plain content, under a MAC of one round and the password p."""
    return store_with_mac(sequence(data(sequence(*bags))), "p", SALTS[2], 1)


def key_of(key_id):
    return keyed(sealed_key(KEY, "p", SALTS[0], 1), key_id=key_id)


def listing(certificates, keys):
    lines = [f"cert {j} {fingerprint or '-'} {parent}" for j, (fingerprint, parent) in enumerate(certificates)]
    lines += [f"key {i} {chain}" for i, chain in enumerate(keys)]
    return "".join(line + "\\n" for line in lines)


def inventory_rows():
    first = published()
    issuer = element(0x30, b"\x05\x00")
    leaf, print_of_both = plain_certificate(issuer, sequence())
    own_id = hashlib.sha1(leaf).digest()
    bags = [keyed(certificate_bag(leaf), "look", own_id), certificate_bag(plain_certificate(issuer, issuer)[0])]
    stored = triple_des_store("changeit", bags, own_id)
    both = f"cert 0 {print_of_both} 1\\ncert 1 {print_of_both} self\\nkey 0 0 1\\n"
    words = "inventory changeit 14336"
    yield "a certificate, its issuer and a key", words, store_input(stored), "Done", both
    yield "the same without a line feed", words, stored.hex(), "Done", both
    yield "three that are no certificates", words, store_input(first), "Done", "cert 0 - -\\ncert 1 - -\\ncert 2 - -\\nkey 0 0\\n"
    yield "one step less than the store takes", "inventory changeit 14335", store_input(first), "WorkLimit", error("WorkLimit")
    yield "a wrong password", "inventory x 14336", store_input(first), "MacMismatch", error("MacMismatch")
    yield "two lines", words, store_input(first, b"\x00"), "InputMalformed", error("InputMalformed")
    yield "an odd number of digits", words, first.hex() + "0\\n", "InputMalformed", error("InputMalformed")
    yield "an empty input", words, "", "Malformed", error("Malformed")
    yield "two arguments", "inventory changeit", store_input(first), "Usage", error("Usage")
    yield "four arguments", words + " 1", store_input(first), "Usage", error("Usage")
    yield "a password of 1,025 octets", f"inventory {'a' * 1025} 1", store_input(first), "Usage", error("Usage")

    # A root, an authority, the authority again under another root, and a server.
    root, root_print = signed_certificate("root", "root", 1, 1)
    authority, authority_print = signed_certificate("authority", "root", 2, 1)
    other_root, other_print = signed_certificate("other root", "other root", 3, 3)
    crossed, _ = signed_certificate("authority", "other root", 2, 3)
    server, server_print = signed_certificate("server", "authority", 4, 2)
    bags = [keyed(certificate_bag(server), "server", b"\x01")]
    bags += [certificate_bag(it) for it in (crossed, authority, other_root, root)]
    yield (
        "a server under an authority that two roots signed", "inventory p 5", store_input(store_of(bags + [key_of(b"\x01")])), "Done",
        listing([(server_print, 1), (authority_print, 3), (authority_print, 4), (other_print, "self"), (root_print, "self")], ["0 1 3"]),
    )
    # Two that are issued by each other, a third by the first, and keys: of the first, of the third, of no certificate, with no id.
    a, plain_print = plain_certificate(name("b"), name("a"))
    b, _ = plain_certificate(name("a"), name("b"))
    c, _ = plain_certificate(name("a"), name("c"))
    bags = [keyed(certificate_bag(it), key_id=bytes([i])) for i, it in enumerate((a, b, c))]
    keys = [key_of(it) for it in (b"\x00", b"\x02", b"\x09", None)]
    yield (
        "certificates in a ring", "inventory p 20", store_input(store_of(bags + keys)), "Done",
        listing([(plain_print, 1), (plain_print, 0), (plain_print, 0)], ["0 1", "2 0 1", "-", "-"]),
    )
    # The first key id of a bag counts, and the least certificate with it.
    twice = [keyed(certificate_bag(a), key_id=b"\x07"), keyed(certificate_bag(b), key_id=b"\x07")]
    yield "two certificates of one key id", "inventory p 20", store_input(store_of(twice + [key_of(b"\x07")])), "Done", listing([(plain_print, 1), (plain_print, 0)], ["0 1"])
    # Optional parts, of which some are out of their order or of another tag.
    shapes = [element(0x81, b""), element(0x82, b"\x00"), element(0xA3, sequence())]
    good = [b"".join(shapes), shapes[0] + shapes[2], shapes[2]]
    bad = [shapes[1] + shapes[0], shapes[2] + shapes[2], element(0xA2, b""), element(0x02, b"\x01")]
    made = [certificate_bag(plain_certificate(name("s"), name("s"), more)[0]) for more in good + bad]
    yield "optional parts of certificates", "inventory p 20", store_input(store_of(made)), "Done", listing([(plain_print, "self")] * 3 + [(None, "-")] * 4, [])


# ---- passdb


def encoded(it):
    return base64.b64encode(it).decode().rstrip("=")


def entry(algorithm, user, password, salt, rounds, size, parameters=None):
    derived = hashlib.pbkdf2_hmac(algorithm, password, salt, rounds, size)
    return f"{user}:$pbkdf2-{algorithm}${parameters or f'i={rounds},l={size}'}${encoded(salt)}${encoded(derived)}\\n"


def passdb_rows():
    salt = octets(0, 16)
    ann = "ann:$pbkdf2-sha256$i=4096,l=40$c2FsdFNBTFRzYWx0U0FMVHNhbHRTQUxUc2FsdFNBTFRzYWx0$NIyJ28vTKy8y2BS4EW6EzysXNH68GAAYHE4qH7jdU+HGNVGMfaxH6Q\\n"
    ann_word = "passwordPASSWORDpassword"
    bob = entry("sha256", "bob", b"s3cret", salt, 1000, 32)
    carl = entry("sha512", "carl", b"pw", octets(100, 20), 1500, 64)
    short = entry("sha512", "carl", b"pw", octets(100, 20), 1500, 20, "l=20,i=1500")
    drawn, undrawn = f"passdb 1000 {salt.hex()}", "passdb 1000 -"
    commands = "\\nadd bob s3cret\\ncheck bob s3cret\\ncheck bob x\\nadd bob y\\nremove eve\\n"
    yield "a name is added and tested", drawn, commands, "Done", "added\\ngood\\nwrong\\nexists\\nunknown\\n\\n" + bob
    yield "one octet to be drawn", "passdb 1000 00", commands, "Rng", error("Rng")
    yield "as many rounds as fresh entries", "passdb 4096 -", f"{ann}\\ncheck ann {ann_word}\\n", "Done", "good\\n\\n" + ann
    yield "fewer rounds than fresh entries", f"passdb 5000 {salt.hex()}", f"{ann}\\ncheck ann {ann_word}\\n", "Done", "renewed\\n\\n" + entry("sha256", "ann", ann_word.encode(), salt, 5000, 32)
    yield "no commands", undrawn, ann + bob + "\\n", "Done", "\\n" + ann + bob
    yield "an empty file", undrawn, "\\n", "Done", "\\n"
    removed = "\\nremove bob\\nchange carl pw pw2\\nchange carl pw x\\nchange dan a b\\nremove bob\\n"
    yield "SHA-512, removed and changed", drawn, bob + carl + removed, "Done", "removed\\nchanged\\nwrong\\nunknown\\nunknown\\n\\n" + entry("sha256", "carl", b"pw2", salt, 1000, 32)
    yield "parameters in another order", "passdb 1500 -", short + "\\ncheck carl pw\\n", "Done", "good\\n\\n" + short
    two = entry("sha256", "b-1", b"pw", salt, 1000, 32) + carl + entry("sha256", "zed", b"pw", b"\xff" * 16, 1000, 32)
    yield "names ascend", drawn + "ff" * 16, carl + "\\nadd b-1 pw\\nadd zed pw\\n", "Done", "added\\nadded\\n\\n" + two
    yield "octets for one name of two", drawn + "ff" * 15, carl + "\\nadd b-1 pw\\nadd zed pw\\n", "Rng", error("Rng")
    yield "nothing is drawn", "passdb 1000 00", carl + "\\nadd carl pw\\ncheck carl pw\\n", "Done", "exists\\ngood\\n\\n" + carl
    yield "a password of 256 octets", undrawn, f"{ann}\\ncheck ann {'a' * 256}\\n", "Done", "wrong\\n\\n" + ann
    yield "digits in upper case", "passdb 1000 AB", "\\n", "Done", "\\n"
    for what, words in (
        ("999 rounds", "passdb 999 -"), ("10,000,001 rounds", "passdb 10000001 -"), ("rounds with a leading zero", "passdb 01000 -"),
        ("an odd number of digits to be drawn", "passdb 1000 0"), ("no digits to be drawn", "passdb 1000 ~"),
        ("an argument more", "passdb 1000 - -"), ("an argument less", "passdb 1000"),
    ):
        yield what, words, "\\n", "Usage", error("Usage")
    malformed = {
        "no empty line": ann, "no octets": "", "names that descend": bob + ann + "\\n", "a name twice": ann + ann + "\\n",
        "no last line feed": ann + "\\nremove ann", "two spaces": ann + "\\nremove  ann\\n", "another verb": ann + "\\nremoved ann\\n",
        "an empty command": ann + "\\n\\n", "three words to check": ann + "\\ncheck ann a b\\n",
        "a password of 257 octets": f"{ann}\\ncheck ann {'a' * 257}\\n", "a carriage return": ann + "\\r\\n",
        "a hash left out": "ann:$pbkdf2-sha256$i=4096,l=32$c2FsdFNBTFRzYWx0\\n\\n", "another length": ann.replace("l=40", "l=32") + "\\n",
        "too many rounds": ann.replace("i=4096", "i=10000001") + "\\n", "too few rounds": ann.replace("i=4096", "i=999") + "\\n",
        "another algorithm": ann.replace("sha256", "sha1") + "\\n", "a space before a name": " " + ann + "\\n",
        "a name of 33 letters": ann.replace("ann", "a" * 33) + "\\n", "an upper-case name": ann.replace("ann", "Ann") + "\\n",
        "octets above 127": ann.replace("ann", "\\0303\\0244nn") + "\\n",
    }
    for what, text in malformed.items():
        yield what, undrawn, text, "InputMalformed", error("InputMalformed")
    yield "a malformed command after one that draws", "passdb 1000 00", "\\nadd bob pw\\nadd\\n", "InputMalformed", error("InputMalformed")


with ROWS.open("w") as out:
    out.write("# Runs of the programs rekey, inventory and passdb, and what is due. Made by programs.py, which says how.\n")
    out.write("# program: name|the arguments|the input|status|the text that is due; an empty argument is ~\n")
    for program, rows in (("rekey", rekey_rows()), ("inventory", inventory_rows()), ("passdb", passdb_rows())):
        for row in rows:
            assert all("|" not in part for part in row)
            out.write(f"{program}: " + "|".join(row) + "\n")
