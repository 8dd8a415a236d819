"""Writes PKCS#12 stores part by part, and documents of private keys, for tests and measurements.

It writes what `read_store.py` reads. A part may be wrong on purpose: nothing here checks what it is given.
"""

import hashlib

from read_store import (
    CERT_BAG,
    CIPHERS,
    DATA,
    ENCRYPTED_DATA,
    LOCAL_KEY_ID,
    PBES2,
    PBKDF2,
    SHA1,
    SHROUDED_KEY_BAG,
    TRIPLE_DES,
    X509,
    element,
    mac_of,
    pbes2_cipher,
    triple_des,
)


def sequence(*parts):
    return element(0x30, b"".join(parts))


def context(number, value):
    return element(0xA0 + number, value)


def octet_string(value):
    return element(0x04, value)


def number(value):
    return element(0x02, value.to_bytes(value.bit_length() // 8 + 1, "big"))


def identifier(text):
    arcs = [int(arc) for arc in text.split(".")]
    octets = b""
    for arc in [40 * arcs[0] + arcs[1]] + arcs[2:]:
        part = [arc & 127]
        while arc := arc >> 7:
            part.append(arc & 127 | 128)
        octets += bytes(reversed(part))
    return element(0x06, octets)


NULL = element(0x05, b"")


def certificate_bag(certificate, attributes=b""):
    return sequence(
        identifier(CERT_BAG),
        context(0, sequence(identifier(X509), context(0, octet_string(certificate)))),
        attributes,
    )


def local_key_id(value):
    """The attributes of a bag that has this local key id alone (RFC 7292 section 4.2)."""
    return element(0x31, sequence(identifier(LOCAL_KEY_ID), element(0x31, octet_string(value))))


def key_bag(algorithm, ciphertext, attributes=b""):
    """A private key that is encrypted."""
    value = context(0, sequence(algorithm, octet_string(ciphertext)))
    return sequence(identifier(SHROUDED_KEY_BAG), value, attributes)


def sealed_key(key, password, salt, count, attributes=b""):
    """A private key under Triple DES."""
    return key_bag(scheme(salt, count), encrypt(password, salt, count, padded(key)), attributes)


def data(octets):
    """A content that is not encrypted."""
    return sequence(identifier(DATA), context(0, octet_string(octets)))


def scheme(salt, count, name=TRIPLE_DES):
    return sequence(identifier(name), sequence(octet_string(salt), number(count)))


def pbes2(parameters, function_parameters=NULL):
    """PBES2 with PBKDF2, as `read_pbes2` has its parameters; a function None is left out."""
    salt, count, length, function, cipher, vector = parameters
    stated = b"" if length is None else number(length)
    prf = b"" if function is None else sequence(identifier(function), function_parameters)
    derivation = sequence(identifier(PBKDF2), sequence(octet_string(salt), number(count), stated, prf))
    scheme = sequence(identifier(cipher), octet_string(vector))
    return sequence(identifier(PBES2), sequence(derivation, scheme))


def encrypted_data(algorithm, ciphertext):
    info = sequence(identifier(DATA), algorithm, element(0x80, ciphertext))
    return sequence(identifier(ENCRYPTED_DATA), context(0, sequence(number(0), info)))


def padded(octets, block=8):
    size = block - len(octets) % block
    return octets + bytes([size]) * size


def encrypt(password, salt, count, blocks):
    """Triple DES in CBC mode of whole blocks, under the derived key and initial vector."""
    encryptor = triple_des(password, salt, count).encryptor()
    return encryptor.update(blocks) + encryptor.finalize()


def encrypt_pbes2(password, parameters, blocks):
    """The cipher in CBC mode of whole blocks, or GCM of any octets with the tag behind them, under the derived key."""
    cipher = pbes2_cipher(password, parameters)
    if CIPHERS[parameters[4]][2] is None:
        return cipher.encrypt(parameters[5], blocks, None)
    encryptor = cipher.encryptor()
    return encryptor.update(blocks) + encryptor.finalize()


def sealed(octets, password, salt, count):
    """A content under Triple DES."""
    return encrypted_data(scheme(salt, count), encrypt(password, salt, count, padded(octets)))


def mac_data(digest, salt, count, algorithm=identifier(SHA1) + NULL):
    """The MAC's data; a count None is left out."""
    stated = b"" if count is None else number(count)
    return sequence(sequence(sequence(algorithm), octet_string(digest)), octet_string(salt), stated)


def store(contents, mac):
    """A store over the octets of the list of contents; `mac` is the MAC data, or nothing."""
    return sequence(number(3), data(contents), mac)


def store_with_mac(contents, password, salt, count):
    return store(contents, mac_data(mac_of(password, salt, count, contents), salt, count))


def sealed_document(key, password, rounds, drawn):
    """The key under PBES2 (RFC 8018 section 6.2): the drawn octets are the initialization vector and then the salt.

    PBKDF2 is Python's, AES that of the package `cryptography`.
    """
    from cryptography.hazmat.primitives.ciphers import Cipher, algorithms, modes

    vector, salt = drawn[:16], drawn[16:32]
    size = 16 - len(key) % 16
    encryptor = Cipher(algorithms.AES(hashlib.pbkdf2_hmac("sha256", password, salt, rounds, 32)), modes.CBC(vector)).encryptor()
    ciphertext = encryptor.update(key + bytes([size]) * size) + encryptor.finalize()
    derivation = sequence(octet_string(salt), number(rounds), sequence(identifier("1.2.840.113549.2.9"), NULL))
    kdf = sequence(identifier("1.2.840.113549.1.5.12"), derivation)
    cipher = sequence(identifier("2.16.840.1.101.3.4.1.42"), octet_string(vector))
    return sequence(sequence(identifier("1.2.840.113549.1.5.13"), sequence(kdf, cipher)), octet_string(ciphertext))
