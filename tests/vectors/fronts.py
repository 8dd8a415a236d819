#!/usr/bin/env python3
"""Writes refusals: each proper front of a text, and the text with one octet 00 more, which no grammar of DER takes.

Run at the top of the repository:

    python3 tests/vectors/fronts.py > tests/vectors/fronts.txt
"""

TEXTS = [
    # a public key of Ed25519 (RFC 8410 section 4)
    ("spki-fingerprint", "302a300506032b65700321004d29167f3f1912a6f7adfa293a051a15c05ec67b8f17267b1c5550dce853bd0d"),
    # PBES2 of OpenSSL (RFC 8018 appendix A.4)
    (
        "pkcs5-scheme",
        "304906092a864886f70d01050d303c301b06092a864886f70d01050c300e0408e8765e01e43b6bad02020800"
        "301d06096086480165030401020410223080a71bcd2b9a256d876c924979d2",
    ),
    # a store of no contents, without a MAC (RFC 7292 section 4)
    ("pkcs12-written", "3016020103301106092a864886f70d010701a00404023000"),
]

print("# Known refusals, written by tests/vectors/fronts.py: each proper front of a text, and the text with one octet more.\n")
for call, digits in TEXTS:
    print(f"# {digits}")
    print(f"{call} - = !Malformed")
    for end in range(2, len(digits), 2):
        print(f"{call} {digits[:end]} = !Malformed")
    print(f"{call} {digits}00 = !Malformed")
