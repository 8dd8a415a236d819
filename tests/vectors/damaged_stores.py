#!/usr/bin/env python3
"""Makes damaged_stores.txt: variants of one small sealed store, each with the answer that is due.

The store has one certificate, the two octets `3000`, in a content under Triple DES of count 2, and a MAC of count 1; its password
is `p`. Some have a private key beside it, under Triple DES of count 2. Others are as programs of today write them: the MAC under
SHA-256, content and key under PBES2 with AES-256. The due answers are written here by hand. The independent reader
`tests/read_store.py` has to agree with each, or nothing is written. `tests/vectors/damaged_stores_openssl.sh` asks OpenSSL about the stores that it judges by the same rules.

    tests/vectors/damaged_stores.py >tests/vectors/damaged_stores.txt
"""

import os
import sys

sys.dont_write_bytecode = True
sys.path.insert(0, os.path.join(os.path.dirname(os.path.abspath(__file__)), ".."))

import make_store as make
import read_store as read

PASSWORD = "p"
CONTENT_SALT = bytes([8, 7, 6, 5, 4, 3, 2, 1])
MAC_SALT = bytes([1, 2, 3, 4, 5, 6, 7, 8])
COUNT, MAC_COUNT = 2, 1
# What opening the whole store takes.
WORK = MAC_COUNT + 3 * COUNT
MOST = 2**64 - 1

CERTIFICATE = bytes.fromhex("3000")
BAG = make.certificate_bag(CERTIFICATE)
BAGS = make.sequence(BAG)
BLOCKS = make.padded(BAGS)
CIPHERTEXT = make.encrypt(PASSWORD, CONTENT_SALT, COUNT, BLOCKS)
CONTENT = make.sealed(BAGS, PASSWORD, CONTENT_SALT, COUNT)
CONTENTS = make.sequence(CONTENT)
STORE = make.store_with_mac(CONTENTS, PASSWORD, MAC_SALT, MAC_COUNT)
MAC = make.mac_data(read.mac_of(PASSWORD, MAC_SALT, MAC_COUNT, CONTENTS), MAC_SALT, MAC_COUNT)

# The private key of RFC 8410 section 10.3.
ED25519_KEY = bytes.fromhex("302e020100300506032b657004220420d4ee72dbf913584ad5b6d8f1f769f8ad3afe7c28cbf1d4fbe097a88f44755842")
# The same with its public key and with attributes, as that section has it.
ED25519_PUBLIC = bytes.fromhex("19bf44096984cdfe8541bac167dc3b96c85086aa30b6b6cb0c5c38ad703166e1")
KEY_SALT = bytes([9, 8, 7, 6, 5, 4, 3, 2])
KEY_BAG = make.sealed_key(ED25519_KEY, PASSWORD, KEY_SALT, COUNT)
# Octets for two documents, which a second line of the input gives.
DRAWN = bytes(range(0xA0, 0xE0))
NEW_PASSWORD, ROUNDS = b"new", 3
SHA384, SHA512 = "2.16.840.1.101.3.4.2.2", "2.16.840.1.101.3.4.2.3"
PBMAC1 = "1.2.840.113549.1.5.14"
SCRYPT = "1.3.6.1.4.1.11591.4.11"
SECRET_BAG = "1.2.840.113549.1.12.10.1.5"
UNSTRUCTURED_NAME = "1.2.840.113549.1.9.2"
HMAC_MD5, HMAC_SHA1, HMAC_SHA224, HMAC_SHA256, HMAC_SHA384, HMAC_SHA512 = (f"1.2.840.113549.2.{arc}" for arc in range(6, 12))
AES_128, AES_192, AES_256 = (f"2.16.840.1.101.3.4.1.{arc}" for arc in (2, 22, 42))
TRIPLE_DES_CBC, DES_CBC = "1.2.840.113549.3.7", "1.3.14.3.2.7"
AES_128_GCM, AES_256_GCM = "2.16.840.1.101.3.4.1.6", "2.16.840.1.101.3.4.1.46"
ENVELOPED_DATA = "1.2.840.113549.1.7.3"

rows = []


def row(name, store, status, steps, certificates=(), documents=(), password=PASSWORD, limit=MOST, drawn=None):
    answered, taken, given, keys = read.answer(store, password, limit, drawn)
    found = (answered, taken, given, [document(key, at) for at, key in enumerate(keys)])
    due = (status, steps, list(certificates), list(documents))
    if found != due:
        sys.exit(f"{name}: due is {due}, the reader answers {found}")
    listed = ",".join(certificate.hex() for certificate in certificates) or "-"
    sealed = ",".join(document.hex() for document in documents) or "-"
    line = "-" if drawn is None else drawn.hex() or "empty"
    rows.append(f"{name} {password} {limit} {status} {steps} {listed} {sealed} {line} {store.hex()}")


def document(key, at=0):
    """The document of a key, of which so many others stand before it."""
    return make.sealed_document(key, NEW_PASSWORD, ROUNDS, DRAWN[32 * at :])


def flipped(octets, at, bit=0):
    changed = bytearray(octets)
    changed[at] ^= 1 << bit
    return bytes(changed)


def with_mac(contents, count=MAC_COUNT):
    """The contents under a MAC of their own."""
    return make.store_with_mac(contents, PASSWORD, MAC_SALT, count)


def with_content(content):
    return with_mac(make.sequence(content))


def with_old_mac(content):
    """The content under the MAC of the sound store."""
    return make.store(make.sequence(content), MAC)


def with_ciphertext(ciphertext):
    return with_content(make.encrypted_data(make.scheme(CONTENT_SALT, COUNT), ciphertext))


def with_blocks(blocks):
    return with_ciphertext(make.encrypt(PASSWORD, CONTENT_SALT, COUNT, blocks))


def with_scheme(scheme):
    return make.encrypted_data(scheme, CIPHERTEXT)


def sound_stores():
    for limit in (WORK, WORK + 1, MOST):
        row(f"sound_limit_{limit}", STORE, "Done", WORK, [CERTIFICATE], limit=limit)
    row("sound_limit_6", STORE, "WorkLimit", 1, limit=WORK - 1)
    row("sound_limit_1", STORE, "WorkLimit", 1, limit=1)
    row("sound_limit_0", STORE, "WorkLimit", 0, limit=0)
    row("another_password", STORE, "MacMismatch", 1, password="x")
    row("another_version", make.sequence(make.number(255), make.data(CONTENTS), MAC), "Done", WORK, [CERTIFICATE])
    digest = read.mac_of(PASSWORD, MAC_SALT, MAC_COUNT, CONTENTS)
    short = make.mac_data(digest, MAC_SALT, MAC_COUNT, make.identifier(read.SHA1))
    row("digest_algorithm_without_null", make.store(CONTENTS, short), "Done", WORK, [CERTIFICATE])
    for name, parameters in (
        ("digest_algorithm_with_two_nulls", make.NULL + make.NULL),
        ("digest_algorithm_with_null_of_a_long_length", bytes.fromhex("058100")),
        ("digest_algorithm_with_a_number", make.number(0)),
    ):
        mac = make.mac_data(digest, MAC_SALT, MAC_COUNT, make.identifier(read.SHA1) + parameters)
        row(name, make.store(CONTENTS, mac), "Malformed", 0)
    row("no_bags", with_blocks(make.padded(make.sequence())), "Done", WORK)
    row("no_contents", with_mac(make.sequence()), "Done", 1)
    # Certificates of 1 to 8 octets, of which only the length counts here, take each padding once.
    for size in range(1, 9):
        certificate = bytes(range(1, size + 1))
        bags = make.sequence(make.certificate_bag(certificate))
        store = with_blocks(make.padded(bags))
        row(f"padding_of_{8 - len(bags) % 8}", store, "Done", WORK, [certificate])


def damaged_ciphertexts():
    for at in (0, 39):
        content = make.encrypted_data(make.scheme(CONTENT_SALT, COUNT), flipped(CIPHERTEXT, at))
        row(f"ciphertext_{at}_old_mac", with_old_mac(content), "MacMismatch", 1)
    # The first block of the plaintext is lost; the padding stands.
    row("ciphertext_0_new_mac", with_ciphertext(flipped(CIPHERTEXT, 0)), "ContentMalformed", WORK)
    # The bit is that of the plaintext's last octet, the padding 01.
    row("ciphertext_31_new_mac", with_ciphertext(flipped(CIPHERTEXT, 31)), "DecryptFailed", WORK)
    # The last block is lost, and the padding with it.
    row("ciphertext_39_new_mac", with_ciphertext(flipped(CIPHERTEXT, 39)), "DecryptFailed", WORK)


def other_plaintexts():
    row("padding_of_9", with_blocks(BAGS + bytes([9]) * 9), "DecryptFailed", WORK)
    row("padding_of_0", with_blocks(BAGS + b"\0"), "DecryptFailed", WORK)
    row("padding_of_255", with_blocks(BAGS + b"\xff"), "DecryptFailed", WORK)
    # A padding of three octets, each of which counts.
    bags = make.sequence(make.certificate_bag(bytes(8)))
    row("padding_02_03_03", with_blocks(bags + b"\2\3\3"), "DecryptFailed", WORK)
    row("padding_03_02_03", with_blocks(bags + b"\3\2\3"), "DecryptFailed", WORK)
    row("padding_03_03_02", with_blocks(bags + b"\3\3\2"), "DecryptFailed", WORK)
    # A right padding of one octet, and two octets too many before it.
    row("padding_03_03_01", with_blocks(bags + b"\3\3\1"), "ContentMalformed", WORK)
    row("plaintext_of_none", with_blocks(make.padded(b"")), "ContentMalformed", WORK)
    row("plaintext_with_an_octet_more", with_blocks(make.padded(BAGS + b"\0")), "ContentMalformed", WORK)
    row("plaintext_with_an_octet_less", with_blocks(make.padded(BAGS[:-1])), "ContentMalformed", WORK)


def other_lengths():
    # No digest is computed for a ciphertext that no plaintext has.
    for size in (0, 7, 39):
        row(f"ciphertext_of_{size}", with_ciphertext(CIPHERTEXT[:size]), "DecryptFailed", 1)
    row("ciphertext_of_41", with_ciphertext(CIPHERTEXT + b"\0"), "DecryptFailed", 1)
    # The limit is tested first.
    row("ciphertext_of_7_limit_6", with_ciphertext(CIPHERTEXT[:7]), "WorkLimit", 1, limit=WORK - 1)


def other_schemes():
    salt = with_scheme(make.scheme(flipped(CONTENT_SALT, 0), COUNT))
    row("content_salt_old_mac", with_old_mac(salt), "MacMismatch", 1)
    row("content_salt_new_mac", with_content(salt), "DecryptFailed", WORK)
    count = with_scheme(make.scheme(CONTENT_SALT, 3))
    row("content_count_3_old_mac", with_old_mac(count), "MacMismatch", 1)
    row("content_count_3_new_mac", with_content(count), "DecryptFailed", 10)
    row("content_count_3_limit_9", with_content(count), "WorkLimit", 1, limit=9)
    zero = with_scheme(make.scheme(CONTENT_SALT, 0))
    row("content_count_0_old_mac", with_old_mac(zero), "MacMismatch", 1)
    row("content_count_0_new_mac", with_content(zero), "ZeroIterations", 1)
    row("content_count_0_limit_1", with_content(zero), "ZeroIterations", 1, limit=1)
    row("content_count_0_limit_0", with_content(zero), "WorkLimit", 0, limit=0)
    # Three times this count passes 64 bits.
    row("content_count_most", with_content(with_scheme(make.scheme(CONTENT_SALT, MOST))), "WorkLimit", 1)
    row("content_count_2_to_64", with_content(with_scheme(make.scheme(CONTENT_SALT, MOST + 1))), "ContentMalformed", 1)
    padded_count = make.sequence(make.octet_string(CONTENT_SALT), make.element(2, b"\0\2"))
    padded_scheme = make.sequence(make.identifier(read.TRIPLE_DES), padded_count)
    row("content_count_with_a_zero_before_it", with_content(with_scheme(padded_scheme)), "ContentMalformed", 1)
    row("content_under_rc2", with_content(with_scheme(make.scheme(CONTENT_SALT, COUNT, read.RC2_40))), "Unsupported", 1)
    pbes2 = make.sequence(make.identifier(read.PBES2), make.sequence())
    row("content_under_pbes2_without_parameters", with_content(with_scheme(pbes2)), "Unsupported", 1)


def other_macs():
    digest = read.mac_of(PASSWORD, MAC_SALT, MAC_COUNT, CONTENTS)

    def under(digest=digest, salt=MAC_SALT, count=MAC_COUNT, **algorithm):
        return make.store(CONTENTS, make.mac_data(digest, salt, count, **algorithm))

    row("mac_first_bit", under(digest=flipped(digest, 0, 7)), "MacMismatch", 1)
    row("mac_last_bit", under(digest=flipped(digest, 19)), "MacMismatch", 1)
    row("mac_of_19", under(digest=digest[:19]), "MacMismatch", 1)
    row("mac_of_21", under(digest=digest + b"\0"), "MacMismatch", 1)
    row("mac_of_none", under(digest=b""), "MacMismatch", 1)
    row("mac_salt", under(salt=flipped(MAC_SALT, 7)), "MacMismatch", 1)
    row("mac_count_2", under(count=2), "MacMismatch", 2)
    row("mac_count_2_limit_1", under(count=2), "WorkLimit", 0, limit=1)
    row("mac_count_0", under(count=0), "ZeroIterations", 0)
    row("mac_count_most", under(count=2**32 - 1), "WorkLimit", 0, limit=2**32 - 2)
    row("mac_count_2_to_32", under(count=2**32), "Malformed", 0)
    # An absent count is 1.
    row("mac_count_absent", under(count=None), "Done", WORK, [CERTIFICATE])
    row("mac_count_absent_limit_0", under(count=None), "WorkLimit", 0, limit=0)
    row("mac_count_1_stated", under(count=1), "Done", WORK, [CERTIFICATE])
    # The MAC of SHA-1 under the name of SHA-256.
    row("mac_named_sha256", under(algorithm=make.identifier(read.SHA256) + make.NULL), "MacMismatch", 1)
    for name, algorithm in (("sha384", SHA384), ("sha512", SHA512), ("pbmac1", PBMAC1)):
        row(f"mac_under_{name}", under(algorithm=make.identifier(algorithm) + make.NULL), "MacUnsupported", 0)
    # The algorithm is looked at before the count, and both before the limit.
    row("mac_under_sha384_count_0", under(count=0, algorithm=make.identifier(SHA384)), "MacUnsupported", 0, limit=0)
    row("mac_missing", make.store(CONTENTS, b""), "MacMissing", 0)


def other_contents():
    encrypted_outside = make.sequence(make.number(3), CONTENT, MAC)
    row("outer_content_encrypted", encrypted_outside, "Unsupported", 0)
    enveloped = make.sequence(make.identifier(ENVELOPED_DATA), make.context(0, make.sequence()))
    row("content_enveloped", with_content(enveloped), "Unsupported", 1)
    row("content_enveloped_behind", with_mac(make.sequence(CONTENT, enveloped)), "Unsupported", WORK)
    failing = make.encrypted_data(make.scheme(CONTENT_SALT, COUNT), b"")
    key = make.data(make.sequence(KEY_BAG))
    # Contents are opened before keys are looked at.
    row("key_before_a_failing_content", with_mac(make.sequence(key, failing)), "DecryptFailed", 1, drawn=DRAWN)
    # The first content that has a fault decides.
    zero = with_scheme(make.scheme(CONTENT_SALT, 0))
    row("two_faults", with_mac(make.sequence(failing, zero)), "DecryptFailed", 1)
    row("two_faults_exchanged", with_mac(make.sequence(zero, failing)), "ZeroIterations", 1)
    # The second content's share comes on top of the first one's.
    twice = with_mac(make.sequence(CONTENT, CONTENT))
    row("two_contents_limit_13", twice, "Done", 13, [CERTIFICATE, CERTIFICATE], limit=13)
    row("two_contents_limit_12", twice, "WorkLimit", WORK, limit=12)
    plain = make.data(make.sequence(make.certificate_bag(bytes.fromhex("3003020101"))))
    both = with_mac(make.sequence(plain, CONTENT))
    row("plain_before_sealed", both, "Done", WORK, [bytes.fromhex("3003020101"), CERTIFICATE])
    row("contents_with_an_octet_more", with_mac(CONTENTS + b"\0"), "ContentMalformed", 1)
    row("contents_with_an_octet_less", with_mac(CONTENTS[:-1]), "ContentMalformed", 1)
    row("contents_of_none", with_mac(b""), "ContentMalformed", 1)


def other_bags():
    def with_bag(bag):
        return with_blocks(make.padded(make.sequence(bag, BAG)))

    def with_attribute(name, *values):
        attribute = make.sequence(make.identifier(name), make.element(0x31, b"".join(values)))
        return with_blocks(make.padded(make.sequence(make.certificate_bag(CERTIFICATE, make.element(0x31, attribute)))))

    def certificate_of(kind, value):
        bag = make.sequence(make.identifier(kind), make.context(0, value))
        return make.sequence(make.identifier(read.CERT_BAG), make.context(0, bag))

    value = make.sequence(make.identifier(read.DATA), make.context(0, make.octet_string(b"secret")))
    secret = make.sequence(make.identifier(SECRET_BAG), make.context(0, value))
    row("secret_bag", with_bag(secret), "Done", WORK, [CERTIFICATE])
    crl = make.sequence(make.identifier("1.2.840.113549.1.9.23.1"), make.context(0, make.octet_string(b"")))
    for name, kind, value in (
        ("plain_key_bag", 1, ED25519_KEY),
        ("crl_bag", 4, crl),
        ("nested_bags", 6, make.sequence()),
        ("bag_of_a_kind_unheard_of", 77, make.NULL),
    ):
        other = make.sequence(make.identifier(f"1.2.840.113549.1.12.10.1.{kind}"), make.context(0, value))
        row(name, with_bag(other), "Done", WORK, [CERTIFICATE])
    row("sdsi_certificate", with_bag(certificate_of(read.SDSI, make.element(0x16, b"MA=="))), "Done", WORK, [CERTIFICATE])
    row("sdsi_certificate_past_127", with_bag(certificate_of(read.SDSI, make.element(0x16, b"\x80"))), "ContentMalformed", WORK)
    row("certificate_of_another_kind", with_bag(certificate_of(read.DATA, make.octet_string(b""))), "ContentMalformed", WORK)
    row("certificate_bag_with_a_part_more", with_bag(make.certificate_bag(CERTIFICATE, make.NULL)), "ContentMalformed", WORK)

    def bmp(units):
        return make.element(0x1E, bytes.fromhex(units))

    row("name", with_attribute(read.FRIENDLY_NAME, bmp("0070")), "Done", WORK, [CERTIFICATE])
    row("name_with_a_pair_of_surrogates", with_attribute(read.FRIENDLY_NAME, bmp("d83dde00")), "Done", WORK, [CERTIFICATE])
    row("name_with_a_lone_surrogate", with_attribute(read.FRIENDLY_NAME, bmp("d83d0070")), "ContentMalformed", WORK)
    row("name_with_surrogates_exchanged", with_attribute(read.FRIENDLY_NAME, bmp("de00d83d")), "ContentMalformed", WORK)
    row("name_of_three_octets", with_attribute(read.FRIENDLY_NAME, bmp("007000")), "ContentMalformed", WORK)
    row("name_of_no_value", with_attribute(read.FRIENDLY_NAME), "ContentMalformed", WORK)
    row("name_twice_in_a_set_out_of_order", with_attribute(read.FRIENDLY_NAME, bmp("0071"), bmp("0070")), "Done", WORK, [CERTIFICATE])

    def with_attributes(*attributes):
        bag = make.certificate_bag(CERTIFICATE, make.element(0x31, b"".join(attributes)))
        return with_blocks(make.padded(make.sequence(bag)))

    name = make.sequence(make.identifier(read.FRIENDLY_NAME), make.element(0x31, bmp("0070")))
    key_id = make.sequence(make.identifier(read.LOCAL_KEY_ID), make.element(0x31, make.octet_string(b"\1")))
    row("name_before_key_id", with_attributes(name, key_id), "Done", WORK, [CERTIFICATE])
    row("key_id_before_name", with_attributes(key_id, name), "Done", WORK, [CERTIFICATE])
    row("name_twice", with_attributes(name, name), "Done", WORK, [CERTIFICATE])
    row("no_attributes", with_attributes(), "Done", WORK, [CERTIFICATE])
    row("key_id", with_attribute(read.LOCAL_KEY_ID, make.octet_string(b"\1")), "Done", WORK, [CERTIFICATE])
    row("key_id_of_no_value", with_attribute(read.LOCAL_KEY_ID), "ContentMalformed", WORK)
    row("another_attribute_of_no_value", with_attribute(UNSTRUCTURED_NAME), "Done", WORK, [CERTIFICATE])


def other_texts():
    row("store_with_an_octet_more", STORE + b"\0", "Malformed", 0)
    row("store_with_an_octet_less", STORE[:-1], "Malformed", 0)
    row("store_of_one_octet", STORE[:1], "Malformed", 0)
    row("store_as_a_set", b"\x31" + STORE[1:], "Malformed", 0)
    # 3081b0.. with its length in one octet more than it needs, and in the indefinite form of BER.
    row("store_length_too_long", b"\x30\x82\x00" + STORE[2:], "Malformed", 0)
    row("store_length_indefinite", b"\x30\x80" + STORE[3:] + b"\0\0", "Malformed", 0)
    row("version_256", make.sequence(make.number(256), make.data(CONTENTS), MAC), "Malformed", 0)
    row("version_negative", make.sequence(make.element(2, b"\xff"), make.data(CONTENTS), MAC), "Malformed", 0)
    row("part_behind_the_mac", make.sequence(make.number(3), make.data(CONTENTS), MAC, make.NULL), "Malformed", 0)


def with_keys(*bags):
    """The sealed content, and the bags in a content that is not encrypted."""
    return with_mac(make.sequence(CONTENT, make.data(make.sequence(*bags))))


def keys():
    work = WORK + 3 * COUNT
    row("key", with_keys(KEY_BAG), "Done", work, [CERTIFICATE], [document(ED25519_KEY)], drawn=DRAWN)
    row("key_in_front", with_mac(make.sequence(make.data(make.sequence(KEY_BAG)), CONTENT)), "Done", work, [CERTIFICATE], [document(ED25519_KEY)], drawn=DRAWN)
    row("key_limit_reached", with_keys(KEY_BAG), "Done", work, [CERTIFICATE], [document(ED25519_KEY)], limit=work, drawn=DRAWN)
    row("key_limit_passed", with_keys(KEY_BAG), "WorkLimit", WORK, limit=work - 1, drawn=DRAWN)
    two = with_keys(KEY_BAG, make.sealed_key(ED25519_KEY, PASSWORD, CONTENT_SALT, COUNT))
    documents = [document(ED25519_KEY), document(ED25519_KEY, 1)]
    row("two_keys", two, "Done", work + 3 * COUNT, [CERTIFICATE], documents, drawn=DRAWN)
    # 32 octets are drawn for each key.
    row("two_keys_63_drawn", two, "Rng", work + 3 * COUNT, drawn=DRAWN[:63])
    row("key_31_drawn", with_keys(KEY_BAG), "Rng", work, drawn=DRAWN[:31])
    row("key_none_drawn", with_keys(KEY_BAG), "Rng", work, drawn=b"")
    row("no_key_none_drawn", STORE, "Done", WORK, [CERTIFICATE], drawn=b"")
    key_faults(work)
    key_texts(work)


def key_faults(work):
    rc2 = make.key_bag(make.scheme(KEY_SALT, COUNT, read.RC2_40), CIPHERTEXT)
    row("key_under_rc2", with_keys(rc2), "Unsupported", WORK, drawn=DRAWN)
    zero = make.key_bag(make.scheme(KEY_SALT, 0), CIPHERTEXT)
    row("key_count_0", with_keys(zero), "ZeroIterations", WORK, drawn=DRAWN)
    row("key_empty", with_keys(make.key_bag(make.scheme(KEY_SALT, COUNT), b"")), "DecryptFailed", WORK, drawn=DRAWN)
    row("key_of_7_octets", with_keys(make.key_bag(make.scheme(KEY_SALT, COUNT), bytes(7))), "DecryptFailed", WORK, drawn=DRAWN)
    unpadded = make.encrypt(PASSWORD, KEY_SALT, COUNT, bytes(7) + b"\x09")
    row("key_ends_in_09", with_keys(make.key_bag(make.scheme(KEY_SALT, COUNT), unpadded)), "DecryptFailed", work, drawn=DRAWN)
    # The first key that has a fault decides, and before the draw.
    row("key_before_a_faulty_one", with_keys(KEY_BAG, rc2), "Unsupported", work, drawn=b"")
    row("two_faulty_keys", with_keys(zero, rc2), "ZeroIterations", WORK, drawn=DRAWN)


def key_texts(work):
    """Private keys in several spellings, and texts that are none."""

    def text(*parts):
        return make.sequence(*parts)

    zero, one = make.number(0), make.number(1)
    algorithm = make.sequence(make.identifier("1.3.101.112"))
    secret = ED25519_KEY[-34:]
    key = make.octet_string(secret)
    attributes = make.element(0xA0, make.element(0x30, b""))
    public = make.element(0x81, b"\0" + ED25519_PUBLIC)
    further = make.element(0x82, b"\1") + make.element(0xBE, b"")

    def sealed(octets):
        return with_keys(make.sealed_key(octets, PASSWORD, KEY_SALT, COUNT))

    plain, with_public = text(zero, algorithm, key), text(one, algorithm, key, public)
    assert plain == ED25519_KEY
    for name, octets, canonical in [
        ("key_with_attributes", text(zero, algorithm, key, attributes), plain),
        ("key_with_public_key", with_public, with_public),
        ("key_with_both", text(one, algorithm, key, attributes, public), with_public),
        ("key_with_further_fields", text(one, algorithm, key, public, further), with_public),
    ]:
        row(name, sealed(octets), "Done", work, [CERTIFICATE], [document(canonical)], drawn=DRAWN)
    for name, octets in [
        ("key_of_version_1_without_public_key", text(one, algorithm, key)),
        ("key_of_version_0_with_public_key", text(zero, algorithm, key, public)),
        ("key_of_version_2", text(make.number(2), algorithm, key, public)),
        ("key_with_public_key_before_attributes", text(one, algorithm, key, public, attributes)),
        ("key_with_another_element", text(zero, algorithm, key, make.NULL)),
        ("key_with_an_octet_behind", plain + b"\0"),
        ("key_of_no_octets", b""),
        ("key_that_is_a_certificate", CERTIFICATE),
    ]:
        row(name, sealed(octets), "KeyMalformed", work, drawn=DRAWN)


# Stores as programs of today write them.

PBKDF2_SALT, VECTOR = bytes(range(0x10, 0x20)), bytes(range(0x20, 0x30))


def pbes2(count=COUNT, length=None, function=HMAC_SHA256, cipher=AES_256, salt=PBKDF2_SALT, vector=VECTOR):
    return salt, count, length, function, cipher, vector


def under_pbes2(octets, parameters, password=PASSWORD):
    """The ciphertext of the octets, padded."""
    if parameters[3] is None:
        parameters = parameters[:3] + (HMAC_SHA1,) + parameters[4:]
    block = read.CIPHERS[parameters[4]][2]
    return make.encrypt_pbes2(password, parameters, octets if block is None else make.padded(octets, block))


def pbes2_content(parameters, octets=BAGS, password=PASSWORD):
    return make.encrypted_data(make.pbes2(parameters), under_pbes2(octets, parameters, password))


def with_sha256(contents, count=MAC_COUNT, password=PASSWORD):
    """The contents under a MAC of SHA-256; a count of 1 is left out."""
    digest = read.mac_of(password, MAC_SALT, count, contents, read.SHA256)
    algorithm = make.identifier(read.SHA256) + make.NULL
    return make.store(contents, make.mac_data(digest, MAC_SALT, None if count == 1 else count, algorithm))


def today(parameters, **options):
    return with_sha256(make.sequence(pbes2_content(parameters, **options)))


def todays_macs():
    digest = read.mac_of(PASSWORD, MAC_SALT, MAC_COUNT, CONTENTS, read.SHA256)

    def under(digest=digest, count=MAC_COUNT, parameters=make.NULL):
        return make.store(CONTENTS, make.mac_data(digest, MAC_SALT, count, make.identifier(read.SHA256) + parameters))

    row("sha256", under(), "Done", WORK, [CERTIFICATE])
    row("sha256_without_null", under(parameters=b""), "Done", WORK, [CERTIFICATE])
    row("sha256_with_a_number", under(parameters=make.number(0)), "Malformed", 0)
    row("sha256_count_absent", under(count=None), "Done", WORK, [CERTIFICATE])
    row("sha256_count_0", under(count=0), "ZeroIterations", 0)
    row("sha256_count_2", with_sha256(CONTENTS, 2), "Done", WORK + 1, [CERTIFICATE])
    row("sha256_count_2_as_1", under(count=2), "MacMismatch", 2)
    row("sha256_another_password", under(), "MacMismatch", 1, password="x")
    row("sha256_last_bit", under(digest=flipped(digest, 31)), "MacMismatch", 1)
    # A MAC of 20 octets is that of SHA-1.
    row("sha256_of_20", under(digest=digest[:20]), "MacMismatch", 1)
    row("sha256_of_33", under(digest=digest + b"\0"), "MacMismatch", 1)
    keyed = read.hmac.new(read.derive(PASSWORD, MAC_SALT, 1, 3, 20), CONTENTS, "sha256").digest()
    row("sha256_under_a_key_of_20", under(digest=keyed), "MacMismatch", 1)


def todays_contents():
    # The steps are the answers of the function: two where one answer is shorter than the key.
    for name, parameters, work in (
        ("sha1_aes128", pbes2(function=HMAC_SHA1, cipher=AES_128), 2),
        ("sha1_aes192", pbes2(function=HMAC_SHA1, cipher=AES_192), 4),
        ("sha1_aes256", pbes2(function=HMAC_SHA1), 4),
        ("sha224_aes192", pbes2(function=HMAC_SHA224, cipher=AES_192), 2),
        ("sha224_aes256", pbes2(function=HMAC_SHA224), 4),
        ("sha256_aes128", pbes2(cipher=AES_128), 2),
        ("sha256_aes256", pbes2(), 2),
        ("sha384_aes256", pbes2(function=HMAC_SHA384), 2),
        ("sha512_aes256", pbes2(function=HMAC_SHA512), 2),
        ("default_function_aes256", pbes2(function=None), 4),
        ("key_length_32", pbes2(length=32), 2),
        ("count_3", pbes2(count=3), 3),
        ("salt_of_32", pbes2(salt=bytes(32)), 2),
        ("salt_of_none", pbes2(salt=b""), 2),
        ("triple_des", pbes2(cipher=TRIPLE_DES_CBC, vector=VECTOR[:8]), 2),
        ("sha1_triple_des", pbes2(function=HMAC_SHA1, cipher=TRIPLE_DES_CBC, vector=VECTOR[:8]), 4),
        ("des", pbes2(cipher=DES_CBC, vector=VECTOR[:8]), 2),
        ("aes128_gcm", pbes2(cipher=AES_128_GCM, vector=VECTOR[:12]), 2),
        ("aes256_gcm", pbes2(cipher=AES_256_GCM, vector=VECTOR[:12]), 2),
    ):
        row(f"pbes2_{name}", today(parameters), "Done", 1 + work, [CERTIFICATE])
    store = today(pbes2())
    row("pbes2_limit_reached", store, "Done", 3, [CERTIFICATE], limit=3)
    row("pbes2_limit_passed", store, "WorkLimit", 1, limit=2)
    row("pbes2_two_answers_limit_passed", today(pbes2(function=HMAC_SHA1)), "WorkLimit", 1, limit=4)
    # MAC and contents may be of different times.
    row("pbes2_mac_under_sha1", with_content(pbes2_content(pbes2())), "Done", 3, [CERTIFICATE])
    # The password is UTF-8 for PBES2, and UTF-16 for the MAC.
    letters = "\u00e9\u4e2d"
    row("pbes2_letters", with_sha256(make.sequence(pbes2_content(pbes2(), password=letters)), password=letters), "Done", 3, [CERTIFICATE], password=letters)
    row("pbes2_under_another_password", with_sha256(make.sequence(pbes2_content(pbes2(), password="q"))), "DecryptFailed", 3)


def todays_schemes():
    def named(parameters, **options):
        """The sound ciphertext under parameters that are not its own."""
        return with_sha256(make.sequence(make.encrypted_data(make.pbes2(parameters, **options), under_pbes2(BAGS, pbes2()))))

    row("pbes2_another_function", named(pbes2(function=HMAC_SHA512)), "DecryptFailed", 3)
    row("pbes2_another_salt", named(pbes2(salt=flipped(PBKDF2_SALT, 0))), "DecryptFailed", 3)
    row("pbes2_another_count", named(pbes2(count=3)), "DecryptFailed", 4)
    row("pbes2_another_vector", named(pbes2(vector=flipped(VECTOR, 0))), "ContentMalformed", 3)
    row("pbes2_count_0", named(pbes2(count=0)), "ZeroIterations", 1)
    row("pbes2_count_0_limit_1", named(pbes2(count=0)), "ZeroIterations", 1, limit=1)
    row("pbes2_count_most", named(pbes2(count=2**32 - 1)), "WorkLimit", 1, limit=2**32 - 1)
    # A length of the key that is not the cipher's, before the count and the limit.
    for length in (0, 16, 31, 33):
        row(f"pbes2_key_length_{length}", named(pbes2(length=length)), "Unsupported", 1)
    row("pbes2_key_length_16_count_0", named(pbes2(length=16, count=0)), "Unsupported", 1, limit=1)
    # Parameters that are none of PBES2 here are those of another algorithm.
    for name, parameters in (
        ("count_2_to_32", pbes2(count=2**32)),
        ("key_length_2_to_16", pbes2(length=2**16)),
        ("salt_of_33", pbes2(salt=bytes(33))),
        ("vector_of_15", pbes2(vector=VECTOR[:15])),
        ("under_hmac_md5", pbes2(function=HMAC_MD5)),
        ("triple_des_vector_of_16", pbes2(cipher=TRIPLE_DES_CBC)),
        ("aes256_gcm_nonce_of_16", pbes2(cipher=AES_256_GCM)),
    ):
        row(f"pbes2_{name}", named(parameters), "Unsupported", 1)
    # The ciphertext of another cipher.
    row("pbes2_cbc_as_gcm", named(pbes2(cipher=AES_256_GCM, vector=VECTOR[:12])), "DecryptFailed", 3)
    row("pbes2_aes_as_triple_des", named(pbes2(cipher=TRIPLE_DES_CBC, vector=VECTOR[:8])), "DecryptFailed", 3)
    row("pbes2_triple_des_key_length_32", named(pbes2(cipher=TRIPLE_DES_CBC, vector=VECTOR[:8], length=32)), "Unsupported", 1)
    row("pbes2_function_with_a_number", named(pbes2(), function_parameters=make.number(0)), "Unsupported", 1)
    costs = make.sequence(make.octet_string(PBKDF2_SALT), make.number(2), make.number(8), make.number(1))
    scrypt = make.sequence(make.identifier(SCRYPT), costs)
    cipher = make.sequence(make.identifier(AES_256), make.octet_string(VECTOR))
    scheme = make.sequence(make.identifier(read.PBES2), make.sequence(scrypt, cipher))
    row("pbes2_scrypt", with_sha256(make.sequence(make.encrypted_data(scheme, bytes(32)))), "Unsupported", 1)


def todays_ciphertexts():
    ciphertext = under_pbes2(BAGS, pbes2())

    def under(octets):
        return with_sha256(make.sequence(make.encrypted_data(make.pbes2(pbes2()), octets)))

    def blocks(octets):
        return under(make.encrypt_pbes2(PASSWORD, pbes2(), octets))

    # The key is derived first, whatever the length.
    for size in (0, 8, len(ciphertext) - 1):
        row(f"pbes2_ciphertext_of_{size}", under(ciphertext[:size]), "DecryptFailed", 3)
    row("pbes2_ciphertext_one_more", under(ciphertext + b"\0"), "DecryptFailed", 3)
    row("pbes2_ciphertext_a_block_less", under(ciphertext[:-16]), "DecryptFailed", 3)
    row("pbes2_ciphertext_last_bit", under(flipped(ciphertext, len(ciphertext) - 1)), "DecryptFailed", 3)
    row("pbes2_ciphertext_first_bit", under(flipped(ciphertext, 0)), "ContentMalformed", 3)
    # Certificates of 1 to 16 octets take each padding once.
    for size in range(1, 17):
        certificate = bytes(range(1, size + 1))
        bags = make.sequence(make.certificate_bag(certificate))
        row(f"pbes2_padding_of_{16 - len(bags) % 16}", today(pbes2(), octets=bags), "Done", 3, [certificate])
    gcm = pbes2(cipher=AES_256_GCM, vector=VECTOR[:12])
    tagged = under_pbes2(BAGS, gcm)

    def sealed(octets):
        return with_sha256(make.sequence(make.encrypted_data(make.pbes2(gcm), octets)))

    row("pbes2_gcm_last_bit_of_the_tag", sealed(flipped(tagged, len(tagged) - 1)), "DecryptFailed", 3)
    row("pbes2_gcm_first_bit", sealed(flipped(tagged, 0)), "DecryptFailed", 3)
    row("pbes2_gcm_of_15", sealed(tagged[:15]), "DecryptFailed", 3)
    fill = 16 - len(BAGS) % 16
    row("pbes2_padding_of_0", blocks(BAGS + bytes(fill)), "DecryptFailed", 3)
    row("pbes2_padding_of_17", blocks(BAGS + bytes([17]) * fill), "DecryptFailed", 3)
    row("pbes2_padding_of_255", blocks(BAGS + b"\xff" * fill), "DecryptFailed", 3)
    row("pbes2_padding_first_octet", blocks(BAGS + b"\0" + bytes([fill]) * (fill - 1)), "DecryptFailed", 3)
    row("pbes2_plaintext_of_none", blocks(bytes([16]) * 16), "ContentMalformed", 3)


def todays_keys():
    def sealed(octets, parameters=pbes2()):
        key = make.key_bag(make.pbes2(parameters), under_pbes2(octets, parameters))
        return with_sha256(make.sequence(pbes2_content(pbes2()), make.data(make.sequence(key))))

    def named(scheme, ciphertext=bytes(16)):
        key = make.data(make.sequence(make.key_bag(scheme, ciphertext)))
        return with_sha256(make.sequence(pbes2_content(pbes2()), key))

    one = [document(ED25519_KEY)]
    row("pbes2_key", sealed(ED25519_KEY), "Done", 5, [CERTIFICATE], one, drawn=DRAWN)
    row("pbes2_key_limit_reached", sealed(ED25519_KEY), "Done", 5, [CERTIFICATE], one, limit=5, drawn=DRAWN)
    row("pbes2_key_limit_passed", sealed(ED25519_KEY), "WorkLimit", 3, limit=4, drawn=DRAWN)
    row("pbes2_key_sha1_aes192", sealed(ED25519_KEY, pbes2(function=HMAC_SHA1, cipher=AES_192)), "Done", 7, [CERTIFICATE], one, drawn=DRAWN)
    row("pbes2_key_none_drawn", sealed(ED25519_KEY), "Rng", 5, drawn=b"")
    row("pbes2_key_of_no_octets", sealed(b""), "KeyMalformed", 5, drawn=DRAWN)
    row("pbes2_key_that_is_a_certificate", sealed(CERTIFICATE), "KeyMalformed", 5, drawn=DRAWN)
    row("pbes2_key_length_24", named(make.pbes2(pbes2(length=24))), "Unsupported", 3, drawn=DRAWN)
    row("pbes2_key_count_0", named(make.pbes2(pbes2(count=0))), "ZeroIterations", 3, drawn=DRAWN)
    row("pbes2_key_triple_des", sealed(ED25519_KEY, pbes2(cipher=TRIPLE_DES_CBC, vector=VECTOR[:8])), "Done", 5, [CERTIFICATE], one, drawn=DRAWN)
    row("pbes2_key_aes256_gcm", sealed(ED25519_KEY, pbes2(cipher=AES_256_GCM, vector=VECTOR[:12])), "Done", 5, [CERTIFICATE], one, drawn=DRAWN)
    row("pbes2_key_empty", named(make.pbes2(pbes2()), b""), "DecryptFailed", 5, drawn=DRAWN)
    # A key under Triple DES in a store of today.
    mixed = with_sha256(make.sequence(pbes2_content(pbes2()), make.data(make.sequence(KEY_BAG))))
    row("pbes2_key_under_triple_des_of_rfc_7292", mixed, "Done", 3 + 3 * COUNT, [CERTIFICATE], one, drawn=DRAWN)


HEAD = """\
# Variants of a small sealed store, and the answer that is due to each. Made by damaged_stores.py, which says how.
# name password limit status steps certificates documents line store
# Steps are the digests of the derivation and the answers of PBKDF2's function; certificates, documents, the second line and the store are in hexadecimal, `-` where
# there is none. The documents are under the new password `new` with 3 rounds.
# `old_mac` has the MAC of the sound store, `new_mac` one of the contents as they are; all other contents have one of their own."""


def main():
    sound_stores()
    damaged_ciphertexts()
    other_plaintexts()
    other_lengths()
    other_schemes()
    other_macs()
    other_contents()
    other_bags()
    other_texts()
    keys()
    todays_macs()
    todays_contents()
    todays_schemes()
    todays_ciphertexts()
    todays_keys()
    print(HEAD)
    print("\n".join(rows))


main()
