#!/usr/bin/env python3
"""Writes known answers of the block ciphers: those of the standards, and OpenSSL's.

Run at the top of the repository, with OpenSSL 3 and its legacy provider (for DES):

    python3 tests/vectors/block_ciphers.py > tests/vectors/block_ciphers.txt

A line is `CIPHER-encrypt KEY BLOCK = ANSWER` or `CIPHER-decrypt KEY ANSWER = BLOCK`, in hexadecimal. For each cipher 200
keys and blocks are cut from SHA-256 of its name and the line's number; the answer is what `openssl enc` makes of the
block. Last run with OpenSSL 3.0.19; a new run writes the same file.
"""

import hashlib
import subprocess

ROWS = 200

# name, mode of OpenSSL, octets of a key, octets of a block, name that the octets are cut from
CIPHERS = [
    ("aes128", "aes-128-ecb", 16, 16, "AES_128"),
    ("aes192", "aes-192-ecb", 24, 16, "AES_192"),
    ("aes256", "aes-256-ecb", 32, 16, "AES_256"),
    ("des", "des-ecb", 8, 8, "DES"),
    ("tdes", "des-ede3", 24, 8, "TDES_EDE3"),
]

# FIPS 197 appendix C, and of NIST's known answers the variable key and the variable text: one bit at the first and at
# the last place, and all bits; of NIST SP 800-17 the same for DES, and a worked example under a key that is not weak;
# the same for Triple DES under three equal keys, and NIST SP 800-67 appendix B under three different ones
STANDARDS = {
    "aes128": """
000102030405060708090a0b0c0d0e0f 00112233445566778899aabbccddeeff 69c4e0d86a7b0430d8cdb78070b4c55a
80000000000000000000000000000000 00000000000000000000000000000000 0edd33d3c621e546455bd8ba1418bec8
00000000000000000000000000000001 00000000000000000000000000000000 0545aad56da2a97c3663d1432a3d1c84
ffffffffffffffffffffffffffffffff 00000000000000000000000000000000 a1f6258c877d5fcd8964484538bfc92c
00000000000000000000000000000000 80000000000000000000000000000000 3ad78e726c1ec02b7ebfe92b23d9ec34
00000000000000000000000000000000 00000000000000000000000000000001 58e2fccefa7e3061367f1d57a4e7455a
00000000000000000000000000000000 ffffffffffffffffffffffffffffffff 3f5b8cc9ea855a0afa7347d23e8d664e
""",
    "aes192": """
000102030405060708090a0b0c0d0e0f1011121314151617 00112233445566778899aabbccddeeff dda97ca4864cdfe06eaf70a0ec0d7191
800000000000000000000000000000000000000000000000 00000000000000000000000000000000 de885dc87f5a92594082d02cc1e1b42c
000000000000000000000000000000000000000000000001 00000000000000000000000000000000 8bae4efb70d33a9792eea9be70889d72
ffffffffffffffffffffffffffffffffffffffffffffffff 00000000000000000000000000000000 dd8a493514231cbf56eccee4c40889fb
000000000000000000000000000000000000000000000000 80000000000000000000000000000000 6cd02513e8d4dc986b4afe087a60bd0c
000000000000000000000000000000000000000000000000 00000000000000000000000000000001 cd33b28ac773f74ba00ed1f312572435
000000000000000000000000000000000000000000000000 ffffffffffffffffffffffffffffffff b13db4da1f718bc6904797c82bcf2d32
""",
    "aes256": """
000102030405060708090a0b0c0d0e0f101112131415161718191a1b1c1d1e1f 00112233445566778899aabbccddeeff 8ea2b7ca516745bfeafc49904b496089
8000000000000000000000000000000000000000000000000000000000000000 00000000000000000000000000000000 e35a6dcb19b201a01ebcfa8aa22b5759
0000000000000000000000000000000000000000000000000000000000000001 00000000000000000000000000000000 6b6cfe160a6263631b292f879eeff926
ffffffffffffffffffffffffffffffffffffffffffffffffffffffffffffffff 00000000000000000000000000000000 4bf85f1b5d54adbc307b0a048389adcb
0000000000000000000000000000000000000000000000000000000000000000 80000000000000000000000000000000 ddc6bf790c15760d8d9aeb6f9a75fd4e
0000000000000000000000000000000000000000000000000000000000000000 00000000000000000000000000000001 530f8afbc74536b9a963b4f1c4cb738b
0000000000000000000000000000000000000000000000000000000000000000 ffffffffffffffffffffffffffffffff acdace8078a32b1a182bfa4987ca1347
""",
    "des": """
8001010101010101 0000000000000000 95a8d72813daa94d
0101010101010102 0000000000000000 869efd7f9f265a09
0101010101010101 8000000000000000 95f8a5e5dd31d900
0101010101010101 0000000000000001 166b40b44aba4bd6
133457799bbcdff1 0123456789abcdef 85e813540f0ab405
""",
    "tdes": """
800101010101010180010101010101018001010101010101 0000000000000000 95a8d72813daa94d
010101010101010201010101010101020101010101010102 0000000000000000 869efd7f9f265a09
010101010101010101010101010101010101010101010101 8000000000000000 95f8a5e5dd31d900
010101010101010101010101010101010101010101010101 0000000000000001 166b40b44aba4bd6
0123456789abcdef23456789abcdef01456789abcdef0123 5468652071756663 a826fd8ce53b855f
0123456789abcdef23456789abcdef01456789abcdef0123 6b2062726f776e20 cce21c8112256fe6
0123456789abcdef23456789abcdef01456789abcdef0123 666f78206a756d70 68d5c05dd9b6b900
""",
}


def fixed_octets(label, count):
    """`count` octets that look random and depend on `label` alone."""
    text = b""
    part = 0
    while len(text) < count:
        text += hashlib.sha256(f"{label} {part}".encode()).digest()
        part += 1
    return text[:count]


def encrypted(mode, key, block):
    """What OpenSSL makes of one block."""
    command = ["openssl", "enc", f"-{mode}", "-K", key.hex(), "-nopad", "-provider", "legacy", "-provider", "default"]
    return subprocess.run(command, input=block, stdout=subprocess.PIPE, check=True).stdout


def both_ways(name, key, block, answer):
    print(f"{name}-encrypt {key} {block} = {answer}")
    print(f"{name}-decrypt {key} {answer} = {block}")


print("# Known answers of the block ciphers, written by tests/vectors/block_ciphers.py.")
for name, _, _, _, _ in CIPHERS:
    print(f"\n# {name}: FIPS 197, NIST SP 800-17 and SP 800-67")
    for row in STANDARDS[name].split("\n"):
        if row:
            both_ways(name, *row.split())
for name, mode, key_len, block_len, label in CIPHERS:
    print(f"\n# {name}: OpenSSL")
    for number in range(ROWS):
        key = fixed_octets(f"{label} key {number}", key_len)
        block = fixed_octets(f"{label} block {number}", block_len)
        both_ways(name, key.hex(), block.hex(), encrypted(mode, key, block).hex())
