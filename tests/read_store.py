#!/usr/bin/env python3
"""An independent reader of PKCS#12 stores, which states what the program has to answer.

It is written from the standards alone: X.690 (DER), RFC 7292 (the store, and the derivation of appendix B.2), RFC 2104 (HMAC),
RFC 8018 (PBES2) and RFC 5958 (private keys). The digests, HMAC and PBKDF2 are those of Python, Triple DES and AES those of the
package `cryptography`. It holds the whole store as Python values and its numbers as Python integers.

    tests/read_store.py STORE.p12 --password-file FILE [--limit STEPS]

prints `cert HEX` for each X.509 certificate in store order and then `key HEX` for each private key, in its canonical encoding, or
`error: NAME`, and on standard error the steps that were taken: a step is one digest of the derivation's iterations, or one answer of
PBKDF2's pseudorandom function. It ends with 0 where the store opens and with 1 where it is refused.
"""

import argparse
import hashlib
import hmac
import sys
import warnings

MOST_OCTETS = 16_777_215

DATA = "1.2.840.113549.1.7.1"
ENCRYPTED_DATA = "1.2.840.113549.1.7.6"
FRIENDLY_NAME = "1.2.840.113549.1.9.20"
LOCAL_KEY_ID = "1.2.840.113549.1.9.21"
X509 = "1.2.840.113549.1.9.22.1"
SDSI = "1.2.840.113549.1.9.22.2"
TRIPLE_DES = "1.2.840.113549.1.12.1.3"
RC2_40 = "1.2.840.113549.1.12.1.6"
SHROUDED_KEY_BAG = "1.2.840.113549.1.12.10.1.2"
CERT_BAG = "1.2.840.113549.1.12.10.1.3"
SHA1 = "1.3.14.3.2.26"
SHA256 = "2.16.840.1.101.3.4.2.1"
PBES2 = "1.2.840.113549.1.5.13"
PBKDF2 = "1.2.840.113549.1.5.12"

# The digest of each MAC that is tested, and the octets of its answer.
MAC_DIGESTS = {SHA1: ("sha1", 20), SHA256: ("sha256", 32)}

# The digest under each pseudorandom function of PBKDF2 (RFC 8018 appendix B.1), and the octets of its answer.
HMAC_SHA1 = "1.2.840.113549.2.7"
FUNCTIONS = {
    HMAC_SHA1: ("sha1", 20),
    "1.2.840.113549.2.8": ("sha224", 28),
    "1.2.840.113549.2.9": ("sha256", 32),
    "1.2.840.113549.2.10": ("sha384", 48),
    "1.2.840.113549.2.11": ("sha512", 64),
}

# The ciphers of PBES2: the octets of the key, of the initial vector and of a block. AES, Triple DES and DES are in CBC mode; with no
# block it is AES in GCM.
CIPHERS = {
    "2.16.840.1.101.3.4.1.2": (16, 16, 16),
    "2.16.840.1.101.3.4.1.22": (24, 16, 16),
    "2.16.840.1.101.3.4.1.42": (32, 16, 16),
    "1.2.840.113549.3.7": (24, 8, 8),
    "1.3.14.3.2.7": (8, 8, 8),
    "2.16.840.1.101.3.4.1.6": (16, 12, None),
    "2.16.840.1.101.3.4.1.46": (32, 12, None),
}

# The most octets of a salt of PBKDF2 that is read.
LONGEST_SALT = 32


class Malformed(Exception):
    """The octets are not in the grammar."""


class Refused(Exception):
    """The store is refused; the argument is the cause."""


def expect(condition):
    if not condition:
        raise Malformed


# DER (X.690): one element is one tag octet, a length in the fewest octets, and the value.


class Parts:
    """The elements that stand one behind the other in some octets."""

    def __init__(self, octets):
        self.octets = octets
        self.position = 0

    def more(self):
        return self.position < len(self.octets)

    def next_tag(self):
        return self.octets[self.position] if self.more() else None

    def header(self):
        """The tag of the next element, where its value begins, and where it ends."""
        octets, at = self.octets, self.position
        expect(len(octets) - at >= 2)
        tag, length = octets[at], octets[at + 1]
        expect(tag & 31 != 31)
        value = at + 2
        if length >= 128:
            count = length - 128
            expect(1 <= count <= 4 and len(octets) - value >= count)
            length = int.from_bytes(octets[value : value + count], "big")
            # In the fewest octets.
            expect(length >= 128 and octets[value] != 0)
            value += count
        end = value + length
        expect(end <= len(octets) and end - at <= 2**32 - 1)
        return tag, value, end

    def value(self, wanted):
        tag, start, end = self.header()
        expect(tag == wanted)
        self.position = end
        return self.octets[start:end]

    def element(self):
        """The next element whole, whatever it is."""
        start = self.position
        self.position = self.header()[2]
        return self.octets[start : self.position]

    def sequence(self):
        return Parts(self.value(0x30))

    def context(self, number):
        return Parts(self.value(0xA0 + number))

    def octet_string(self):
        return self.value(0x04)

    def number(self, bits):
        value = self.value(0x02)
        expect(len(value) >= 1)
        number = int.from_bytes(value, "big", signed=True)
        # The shortest two's complement, not negative, within the type.
        expect(len(value) == 1 or not (value[0] == 0 and value[1] < 128 or value[0] == 255 and value[1] >= 128))
        expect(0 <= number < 2**bits)
        return number

    def identifier(self):
        value = self.value(0x06)
        expect(1 <= len(value) <= 39 and value[-1] < 128)
        arcs, number = [], None
        for octet in value:
            # No subidentifier begins with 80.
            expect(not (number is None and octet == 128))
            number = (number or 0) << 7 | octet & 127
            expect(number < 2**32)
            if octet < 128:
                arcs.append(number)
                number = None
        first = min(arcs[0] // 40, 2)
        return ".".join(str(arc) for arc in [first, arcs[0] - 40 * first] + arcs[1:])

    def end(self):
        expect(not self.more())


def only(octets):
    """The parts of the one SEQUENCE that the octets are."""
    outer = Parts(octets)
    inner = outer.sequence()
    outer.end()
    return inner


# PKCS#12 (RFC 7292, section 4).


def read_function(parts):
    """The pseudorandom function of PBKDF2 with its parameters, which are NULL or left out."""
    inner = parts.sequence()
    name = inner.identifier()
    expect(name in FUNCTIONS)
    if inner.more():
        expect(inner.value(0x05) == b"")
    inner.end()
    return name


def read_pbes2(octets):
    """(salt, count, stated length of the key or None, function, cipher, initial vector) of the parameters of PBES2."""
    body = only(octets)
    derivation, scheme = body.sequence(), body.sequence()
    body.end()
    expect(derivation.identifier() == PBKDF2)
    parameters = derivation.sequence()
    derivation.end()
    salt, count = parameters.octet_string(), parameters.number(32)
    expect(len(salt) <= LONGEST_SALT)
    length = parameters.number(16) if parameters.next_tag() == 0x02 else None
    function = read_function(parameters) if parameters.next_tag() == 0x30 else HMAC_SHA1
    parameters.end()
    cipher = scheme.identifier()
    expect(cipher in CIPHERS)
    vector = scheme.octet_string()
    expect(len(vector) == CIPHERS[cipher][1])
    scheme.end()
    return salt, count, length, function, cipher, vector


def read_algorithm(parts):
    """The name of an algorithm; with salt and count where it is one of the two schemes, with the parameters where it is PBES2."""
    inner = parts.sequence()
    name = inner.identifier()
    if name in MAC_DIGESTS:
        if inner.more():
            expect(inner.value(0x05) == b"")
        result = (name, None, None)
    elif name in (TRIPLE_DES, RC2_40):
        parameters = inner.sequence()
        result = (name, parameters.octet_string(), parameters.number(64))
        parameters.end()
    else:
        octets = inner.element() if inner.more() else b""
        result = (name, None, None)
        if name == PBES2:
            # What is no PBES2 of RFC 8018 is another algorithm.
            try:
                result = (name, read_pbes2(octets), None)
            except Malformed:
                pass
    inner.end()
    return result


def read_content(parts):
    """(DATA, None, octets), (ENCRYPTED_DATA, algorithm, ciphertext) or (another name, None, one element)."""
    inner = parts.sequence()
    name = inner.identifier()
    explicit = inner.context(0)
    if name == DATA:
        result = (name, None, explicit.octet_string())
    elif name == ENCRYPTED_DATA:
        encrypted = explicit.sequence()
        expect(encrypted.number(8) == 0)
        info = encrypted.sequence()
        expect(info.identifier() == DATA)
        algorithm = read_algorithm(info)
        result = (name, algorithm, info.value(0x80))
        info.end()
        encrypted.end()
    else:
        result = (name, None, explicit.element())
    explicit.end()
    inner.end()
    return result


def read_contents(octets):
    parts = only(octets)
    contents = []
    while parts.more():
        contents.append(read_content(parts))
    return contents


def read_attribute(parts):
    inner = parts.sequence()
    name = inner.identifier()
    values = Parts(inner.value(0x31))
    inner.end()
    expect(values.more() or name not in (FRIENDLY_NAME, LOCAL_KEY_ID))
    while values.more():
        if name == FRIENDLY_NAME:
            try:
                values.value(0x1E).decode("utf-16-be")
            except UnicodeDecodeError:
                raise Malformed from None
        elif name == LOCAL_KEY_ID:
            values.octet_string()
        else:
            values.element()


def read_bag(parts):
    """(name of the bag, octets of an X.509 certificate or None, (algorithm, ciphertext) of a key or None)."""
    inner = parts.sequence()
    name = inner.identifier()
    explicit = inner.context(0)
    certificate = key = None
    if name == CERT_BAG:
        bag = explicit.sequence()
        kind = bag.identifier()
        value = bag.context(0)
        if kind == X509:
            certificate = value.octet_string()
        else:
            expect(kind == SDSI)
            expect(all(octet < 128 for octet in value.value(0x16)))
        value.end()
        bag.end()
    elif name == SHROUDED_KEY_BAG:
        bag = explicit.sequence()
        key = (read_algorithm(bag), bag.octet_string())
        bag.end()
    else:
        explicit.element()
    explicit.end()
    if inner.more():
        attributes = Parts(inner.value(0x31))
        while attributes.more():
            read_attribute(attributes)
    inner.end()
    return name, certificate, key


def read_bags(octets):
    parts = only(octets)
    bags = []
    while parts.more():
        bags.append(read_bag(parts))
    return bags


def read_pfx(octets):
    """The outer content, and the MAC's algorithm, digest, salt and count, or None."""
    parts = only(octets)
    parts.number(8)
    content = read_content(parts)
    mac = None
    if parts.more():
        data = parts.sequence()
        info = data.sequence()
        algorithm = read_algorithm(info)
        digest = info.octet_string()
        info.end()
        salt = data.octet_string()
        # iterations INTEGER DEFAULT 1
        mac = (algorithm, digest, salt, data.number(32) if data.more() else 1)
        data.end()
    parts.end()
    return content, mac


# Private keys (RFC 5958, section 2).


def element(tag, value):
    size = len(value)
    if size < 128:
        return bytes([tag, size]) + value
    length = size.to_bytes((size.bit_length() + 7) // 8, "big")
    return bytes([tag, 128 + len(length)]) + length + value


def canonical_key(octets):
    """The private key that the octets are, written without attributes and further fields."""
    parts = only(octets)
    version = parts.number(8)
    expect(version <= 1)
    algorithm = Parts(parts.value(0x30))
    start = algorithm.position
    algorithm.identifier()
    if algorithm.more():
        algorithm.element()
    algorithm.end()
    written = element(0x30, algorithm.octets[start:]) + element(0x04, parts.octet_string())
    if parts.next_tag() == 0xA0:
        parts.element()
    public = parts.next_tag() == 0x81
    if public:
        bits = parts.value(0x81)
        expect(len(bits) >= 1 and bits[0] <= 7 and (bits[0] == 0 or len(bits) > 1))
        written += element(0x81, bits)
    expect(public == (version == 1))
    while parts.more():
        expect(0x82 <= parts.next_tag() <= 0x9E or 0xA2 <= parts.next_tag() <= 0xBE)
        parts.element()
    return element(0x30, element(0x02, bytes([version])) + written)


# The derivation of RFC 7292, appendix B.2 (v = 64), the MAC and the opening.


def bmp_password(password):
    """The password in UTF-16, and two zero octets (appendix B.1)."""
    return password.encode("utf-16-be") + b"\0\0"


def derive(password, salt, count, purpose, size, digest="sha1"):
    """`size` octets for the purpose 1 (a key), 2 (an initial vector) or 3 (a MAC)."""

    def fill(text):
        blocks = -(-len(text) // 64)
        return (text * (64 * blocks // len(text) + 1))[: 64 * blocks] if text else b""

    text = fill(salt) + fill(bmp_password(password))
    numbers = [int.from_bytes(text[at : at + 64], "big") for at in range(0, len(text), 64)]
    key = b""
    while len(key) < size:
        block = bytes([purpose]) * 64 + b"".join(number.to_bytes(64, "big") for number in numbers)
        for _ in range(count):
            block = hashlib.new(digest, block).digest()
        key += block
        step = int.from_bytes((block * 4)[:64], "big") + 1
        numbers = [(number + step) % 2**512 for number in numbers]
    return key[:size]


def mac_of(password, salt, count, content, algorithm=SHA1):
    digest, size = MAC_DIGESTS[algorithm]
    return hmac.new(derive(password, salt, count, 3, size, digest), content, digest).digest()


def cbc_of_des(key, vector):
    """Triple DES in CBC mode; a key of 8 octets is three times the same, which is DES."""
    with warnings.catch_warnings():
        warnings.simplefilter("ignore")
        from cryptography.hazmat.primitives.ciphers import Cipher, modes

        try:
            from cryptography.hazmat.decrepit.ciphers.algorithms import TripleDES
        except ImportError:
            from cryptography.hazmat.primitives.ciphers.algorithms import TripleDES
        return Cipher(TripleDES(key if len(key) == 24 else key * 3), modes.CBC(vector))


def triple_des(password, salt, count):
    """Triple DES in CBC mode, without padding, under the derived key and initial vector."""
    return cbc_of_des(derive(password, salt, count, 1, 24), derive(password, salt, count, 2, 8))


def unlock(password, salt, count, ciphertext):
    """The plaintext, or None where the ciphertext has no right length or padding."""
    if not ciphertext or len(ciphertext) % 8:
        return None
    decryptor = triple_des(password, salt, count).decryptor()
    padded = decryptor.update(ciphertext) + decryptor.finalize()
    size = padded[-1]
    if not 1 <= size <= 8 or padded[-size:] != bytes([size]) * size:
        return None
    return padded[:-size]


def pbes2_key(password, parameters):
    """The key that PBKDF2 derives from the password's UTF-8."""
    salt, count, _, function, cipher, _ = parameters
    return hashlib.pbkdf2_hmac(FUNCTIONS[function][0], password.encode(), salt, count, CIPHERS[cipher][0])


def pbes2_cipher(password, parameters):
    """The cipher in CBC mode, without padding, or in GCM, under the derived key."""
    from cryptography.hazmat.primitives.ciphers import Cipher, algorithms, modes
    from cryptography.hazmat.primitives.ciphers.aead import AESGCM

    key, vector, block = pbes2_key(password, parameters), parameters[5], CIPHERS[parameters[4]][2]
    if block is None:
        return AESGCM(key)
    return cbc_of_des(key, vector) if block == 8 else Cipher(algorithms.AES(key), modes.CBC(vector))


def unlock_gcm(password, parameters, ciphertext):
    """The plaintext, or None where the tag behind the ciphertext is not its own."""
    from cryptography.exceptions import InvalidTag

    if len(ciphertext) < 16:
        return None
    try:
        return pbes2_cipher(password, parameters).decrypt(parameters[5], ciphertext, None)
    except InvalidTag:
        return None


def unlock_pbes2(password, parameters, ciphertext):
    """The plaintext, or None where the ciphertext has no right length or padding, or no right tag."""
    block = CIPHERS[parameters[4]][2]
    if block is None:
        return unlock_gcm(password, parameters, ciphertext)
    if not ciphertext or len(ciphertext) % block:
        return None
    decryptor = pbes2_cipher(password, parameters).decryptor()
    padded = decryptor.update(ciphertext) + decryptor.finalize()
    size = padded[-1]
    if not 1 <= size <= block or padded[-size:] != bytes([size]) * size:
        return None
    return padded[:-size]


# The whole answer, each cause in its order.


class Opening:
    """One opening: how many steps are allowed, and how many were taken."""

    def __init__(self, password, limit):
        self.password = password
        self.limit = limit
        self.shares = 0
        self.steps = 0

    def share(self, steps):
        """A share of the work must fit the limit before any of it is done."""
        self.shares += steps
        if self.shares > self.limit:
            raise Refused("WorkLimit")

    def open(self, store):
        """The certificates, and the canonical encodings of the private keys."""
        if len(store) > MOST_OCTETS:
            raise Refused("TooLong")
        try:
            (kind, _, content), mac = read_pfx(store)
        except Malformed:
            raise Refused("Malformed") from None
        if kind != DATA:
            raise Refused("Unsupported")
        self.check_mac(mac, content)
        try:
            contents = read_contents(content)
        except Malformed:
            raise Refused("ContentMalformed") from None
        bags = [bag for part in contents for bag in self.open_content(part)]
        certificates = [certificate for _, certificate, _ in bags if certificate is not None]
        return certificates, [self.open_key(key) for _, _, key in bags if key is not None]

    def check_mac(self, mac, content):
        if mac is None:
            raise Refused("MacMissing")
        (algorithm, _, _), digest, salt, count = mac
        if algorithm not in MAC_DIGESTS:
            raise Refused("MacUnsupported")
        if count == 0:
            raise Refused("ZeroIterations")
        self.share(count)
        self.steps += count
        if mac_of(self.password, salt, count, content, algorithm) != digest:
            raise Refused("MacMismatch")

    def unlock(self, algorithm, ciphertext):
        name, salt, count = algorithm
        if name == PBES2 and salt is not None:
            return self.unlock_pbes2(salt, ciphertext)
        if name != TRIPLE_DES:
            raise Refused("Unsupported")
        if count == 0:
            raise Refused("ZeroIterations")
        # The key takes two blocks of the derivation, the initial vector one.
        self.share(3 * count)
        if ciphertext and len(ciphertext) % 8 == 0:
            self.steps += 3 * count
        octets = unlock(self.password, salt, count, ciphertext)
        if octets is None:
            raise Refused("DecryptFailed")
        return octets

    def unlock_pbes2(self, parameters, ciphertext):
        _, count, length, function, cipher, _ = parameters
        size = CIPHERS[cipher][0]
        if length not in (None, size):
            raise Refused("Unsupported")
        if count == 0:
            raise Refused("ZeroIterations")
        # As many answers a round as the key takes.
        steps = count * -(-size // FUNCTIONS[function][1])
        self.share(steps)
        self.steps += steps
        octets = unlock_pbes2(self.password, parameters, ciphertext)
        if octets is None:
            raise Refused("DecryptFailed")
        return octets

    def open_key(self, key):
        octets = self.unlock(*key)
        try:
            return canonical_key(octets)
        except Malformed:
            raise Refused("KeyMalformed") from None

    def open_content(self, content):
        kind, algorithm, octets = content
        if kind == ENCRYPTED_DATA:
            octets = self.unlock(algorithm, octets)
        elif kind != DATA:
            raise Refused("Unsupported")
        try:
            return read_bags(octets)
        except Malformed:
            raise Refused("ContentMalformed") from None


def answer(store, password, limit, drawn=None):
    """(status, steps, certificates, keys): what the program has to answer, where there is enough memory.

    The keys are in their canonical encoding. They are sealed under the octets `drawn`, where a second line of the input gives them.
    """
    opening = Opening(password, limit)
    try:
        certificates, keys = opening.open(store)
        if drawn is not None and len(drawn) < 32 * len(keys):
            raise Refused("Rng")
    except Refused as refusal:
        return refusal.args[0], opening.steps, [], []
    return "Done", opening.steps, certificates, keys


def main():
    parser = argparse.ArgumentParser(description="reads a PKCS#12 store and prints its certificates and private keys")
    parser.add_argument("store")
    parser.add_argument("--password-file", required=True, help="the password is the first line of this file")
    parser.add_argument("--limit", type=int, default=100_000_000, help="the most steps")
    arguments = parser.parse_args()
    with open(arguments.store, "rb") as file:
        store = file.read()
    with open(arguments.password_file, encoding="utf-8") as file:
        password = file.readline().rstrip("\n")
    status, steps, certificates, keys = answer(store, password, arguments.limit)
    print(f"steps: {steps}", file=sys.stderr)
    if status != "Done":
        print(f"error: {status}")
        return 1
    for certificate in certificates:
        print(f"cert {certificate.hex()}")
    for key in keys:
        print(f"key {key.hex()}")
    return 0


if __name__ == "__main__":
    sys.exit(main())
