#!/usr/bin/env python3
"""PKCS#12 stores from Python, by the shared library and ctypes: no build step.

usage: pkcs12.py transfer STORE PASSWORD-FILE NEW-PASSWORD-FILE     writes the certificates and the sealed keys as PEM text
       pkcs12.py upgrade STORE PASSWORD-FILE NEW-PASSWORD-FILE      writes the store under the algorithms of today
       pkcs12.py create KEY CERTIFICATES PASSWORD-FILE [NAME [KEY-PASSWORD-FILE]]     writes a store of PEM texts

Stores and passwords are bytes. The library is found as the linker finds others: by LD_LIBRARY_PATH, or where ldconfig has noted it.
LIBPKCS12 is the path of one that is found in neither way.
"""

import ctypes
import os
import sys

__all__ = ["Refused", "transfer_pem", "open_pem", "rekey", "upgrade", "create_pem"]  # and `list`, which would hide Python's own

DONE, ROOM = 0, 100
STORE_MAX = 16_777_215
CREATE_RANDOM = 72  # how many random octets a new store takes
PARTS_MAX = 1000  # the most private keys and encrypted contents that are sealed, since each takes some time

# What the numbers of pkcs12.h mean.
MEANINGS = {
    2: "the rounds are not 1 to 100,000,000",
    7: "out of memory",
    8: "the private key is encrypted, and no password is given",
    10: "no PKCS#12 store in DER",
    11: "something is of a kind, or under an algorithm, that is not opened",
    12: "no MAC, so a change to the store would go unnoticed",
    13: "the MAC is made neither with SHA-1 nor with SHA-256",
    14: "the store asks for zero iterations",
    15: "opening takes more steps than the limit",
    16: "the password is wrong, or the store was changed",
    17: "the MAC agrees, but the contents are damaged",
    18: "the password agrees with the MAC, but a part does not decrypt with it",
    19: "a private key opens, but is not a PKCS#8 key",
    20: "too few random octets",
    21: "the store has more than 16,777,215 octets",
    22: "a password is not UTF-8, or is too long",
    30: "a PEM text has a block that is not whole, or no Base64",
    31: "the PEM text has no private key",
    32: "the PEM text has more than one private key",
    33: "the private key is not what its label names",
    34: "the private key does not open under its password",
    35: "the PEM text has no certificate",
    36: "what the PEM text has as a certificate is no X.509 certificate",
    37: "each certificate is that of another private key",
    38: "the friendly name is not UTF-8",
}


class Refused(Exception):
    """A call was refused; `number` is one of those of pkcs12.h."""

    def __init__(self, number):
        super().__init__(f"refused ({number}): {MEANINGS.get(number, 'see pkcs12.h')}")
        self.number = number


def _load():
    library = ctypes.CDLL(os.environ.get("LIBPKCS12") or "libpkcs12.so.1")
    octets, size = ctypes.c_char_p, ctypes.c_size_t
    output = [ctypes.POINTER(ctypes.c_char), size, ctypes.POINTER(size)]
    library.pkcs12_version.restype = ctypes.c_uint32
    library.pkcs12_version.argtypes = []
    library.pkcs12_room.restype = size
    library.pkcs12_room.argtypes = [size]
    if library.pkcs12_version() < 3:
        raise ImportError("libpkcs12 is older than this module")
    for call in ("transfer_pem", "open_pem", "list", "rekey", "upgrade", "create_pem"):
        getattr(library, f"pkcs12_{call}").restype = ctypes.c_uint32
    sealing = [octets, size] * 3 + [ctypes.c_uint32, ctypes.c_uint64, octets, size]
    library.pkcs12_transfer_pem.argtypes = sealing + output
    library.pkcs12_open_pem.argtypes = [octets, size] * 2 + [ctypes.c_uint64] + output
    library.pkcs12_list.argtypes = library.pkcs12_open_pem.argtypes
    library.pkcs12_rekey.argtypes = [octets, size] * 3 + [ctypes.c_uint64, octets, size] + output
    library.pkcs12_upgrade.argtypes = library.pkcs12_transfer_pem.argtypes
    library.pkcs12_create_pem.argtypes = [octets, size] * 5 + [ctypes.c_uint32, ctypes.c_uint32, octets, size] + output
    return library


_library = _load()


def _octets(name, value):
    if not isinstance(value, (bytes, bytearray, memoryview)):
        raise TypeError(f"{name} is bytes, and not {type(value).__name__}")
    return bytes(value)


def _number(name, value, most):
    """ctypes takes the lowest bits of a number that does not fit, and refuses none."""
    if not 0 <= value <= most:
        raise ValueError(f"{name} is from 0 to {most}, and not {value}")
    return value


# Random octets for PARTS_MAX parts and the MAC: of a store with more parts 20 is returned.
RANDOM_MOST = 32 * PARTS_MAX + 16


def _random(store):
    """As many octets as the store has are always enough, but for an upgrade."""
    return os.urandom(min(len(store), RANDOM_MOST))


def _output(call, store, *arguments):
    """Calls with as much room as the output takes: for the PEM text of a store that is always enough, and for a table of long chains
    or a changed store it is tried first."""
    return _written(call, _library.pkcs12_room(len(store)), store, len(store), *arguments)


def _written(call, room, *arguments):
    """Calls with so much room, and again where that is too little."""
    while True:
        output = ctypes.create_string_buffer(room)
        needed = ctypes.c_size_t()
        number = call(*arguments, output, room, ctypes.byref(needed))
        if number == DONE:
            return output.raw[: needed.value]
        if number != ROOM:
            raise Refused(number)
        room = needed.value


def transfer_pem(store, password, new_password, rounds=600_000, limit=100_000_000):
    """The PEM text of the octets `store`: certificates, then keys sealed under `new_password`."""
    store, password, new_password = _octets("store", store), _octets("password", password), _octets("new_password", new_password)
    random = _random(store)
    return _output(
        _library.pkcs12_transfer_pem, store, password, len(password), new_password, len(new_password),
        _number("rounds", rounds, 2**32 - 1), _number("limit", limit, 2**64 - 1), random, len(random),
    ).decode("ascii")


def open_pem(store, password, limit=100_000_000):
    """The same, with keys that are not sealed."""
    store, password = _octets("store", store), _octets("password", password)
    return _output(_library.pkcs12_open_pem, store, password, len(password), _number("limit", limit, 2**64 - 1)).decode("ascii")


def list(store, password, limit=100_000_000):
    """A line for each certificate and each encrypted private key of the store, as pkcs12.h says."""
    store, password = _octets("store", store), _octets("password", password)
    return _output(_library.pkcs12_list, store, password, len(password), _number("limit", limit, 2**64 - 1)).decode("ascii")


def rekey(store, password, new_password, limit=100_000_000):
    """The octets of the store under another password, with all that is in it."""
    store, password, new_password = _octets("store", store), _octets("password", password), _octets("new_password", new_password)
    random = _random(store)
    return _output(
        _library.pkcs12_rekey, store, password, len(password), new_password, len(new_password),
        _number("limit", limit, 2**64 - 1), random, len(random),
    )


def upgrade(store, password, new_password, rounds=600_000, limit=100_000_000):
    """The same under the algorithms of today, AES-256 and HMAC-SHA-256, in so many rounds; `new_password` may be the old one."""
    store, password, new_password = _octets("store", store), _octets("password", password), _octets("new_password", new_password)
    random = os.urandom(RANDOM_MOST)
    return _output(
        _library.pkcs12_upgrade, store, password, len(password), new_password, len(new_password),
        _number("rounds", rounds, 2**32 - 1), _number("limit", limit, 2**64 - 1), random, len(random),
    )


def create_pem(key, certificates, password, name=None, key_password=None, rounds=600_000, limit=100_000_000):
    """The octets of a store of the private key and of the certificates that these PEM texts have, which may be one text. `name` is
    str, the friendly name of the key and of its certificate; `key_password` opens a private key that is encrypted, in at most `limit`
    rounds."""
    key, certificates, password = _octets("key", key), _octets("certificates", certificates), _octets("password", password)
    key_password = b"" if key_password is None else _octets("key_password", key_password)
    if not isinstance(name, (str, type(None))):
        raise TypeError(f"name is str, and not {type(name).__name__}")
    name = (name or "").encode(errors="surrogateescape")
    random = os.urandom(CREATE_RANDOM)
    return _written(
        _library.pkcs12_create_pem, 4096 + len(key) + len(certificates) + 4 * len(name), key, len(key), certificates,
        len(certificates), key_password, len(key_password), name, len(name), password, len(password),
        _number("rounds", rounds, 2**32 - 1), _number("limit", limit, 2**32 - 1), random, len(random),
    )


def _contents(path):
    with open(path, "rb") as file:
        return file.read(STORE_MAX + 1)


def _first_line(path):
    with open(path, "rb") as file:
        return file.readline(STORE_MAX).rstrip(b"\n").removesuffix(b"\r")


def _called(call, words):
    """What the call of this name gives, of the files that the words name."""
    if call == "create":
        name = words[3] if len(words) > 3 else None
        key_password = _first_line(words[4]) if len(words) > 4 else None
        return create_pem(_contents(words[0]), _contents(words[1]), _first_line(words[2]), name, key_password)
    store, password, new_password = _contents(words[0]), _first_line(words[1]), _first_line(words[2])
    if call == "upgrade":
        return upgrade(store, password, new_password)
    return transfer_pem(store, password, new_password).encode("ascii")


def main():
    counts = {"transfer": (3,), "upgrade": (3,), "create": (3, 4, 5)}
    if len(sys.argv) - 2 not in counts.get("".join(sys.argv[1:2]), ()):
        print(__doc__, file=sys.stderr)
        sys.exit(2)
    if sys.stdout is None:
        print("there is no standard output", file=sys.stderr)
        sys.exit(4)
    try:
        octets = _called(sys.argv[1], sys.argv[2:])
    except OSError as fault:
        print(fault, file=sys.stderr)
        sys.exit(3)
    except Refused as refused:
        print(refused, file=sys.stderr)
        sys.exit(refused.number)
    try:
        sys.stdout.buffer.write(octets)
        sys.stdout.flush()
    except OSError as fault:
        print(fault, file=sys.stderr)
        os._exit(4)  # an exit in the usual way would write the octets again


if __name__ == "__main__":
    main()
