#!/usr/bin/env python3
"""Writes known answers of PHC strings: the password hashes of other programs.

Run at the top of the repository, with Debian's own Python, its packages argon2, python3-argon2, python3-passlib,
python3-bcrypt, python3-nacl, php-cli, librust-pbkdf2-dev and librust-pbkdf2+simple-dev, and a cargo:

    /usr/bin/python3 tests/vectors/phc_strings.py

It writes tests/vectors/phc_strings.txt: password hashes that these programs write, in PHC strings and in other formats
that begin alike, which are refused. Where a program takes the salt from its caller, each run makes its string anew and
writes the same file. PHP and libsodium draw the salt, so their strings are those of one run, and each run has the
program say that they are hashes of the password.

Last run with argon2 0~20171227 (the reference program of Argon2), argon2-cffi 21.1.0, passlib 1.7.4 (with bcrypt 3.2.2),
PHP 8.2.36, PyNaCl 1.5.0 with libsodium 1.0.18, Python 3.11.2 with libxcrypt 4.4.33, and the Rust crate pbkdf2 0.11.0, all
of Debian 12.
"""

import base64
import subprocess
import tempfile
import warnings
from pathlib import Path

warnings.simplefilter("ignore")

import crypt

import argon2
import nacl.pwhash
from passlib import hash as passlib

FILE = Path("tests/vectors/phc_strings.txt")
PASSWORD = b"password"
SALT = b"somesalt"

# a salt whose Base64 has `+` and `/`
WIDE_SALT = bytes(range(240, 256)) + bytes([251, 239, 190])

PHP = "$argon2id$v=19$m=64,t=2,p=1$TXYzUmVjd0VZcklWZDRpNg$eq0ChBEg3rjVW6fllkQujtSPagFZfkPstFwudZo0pJw"
LIBSODIUM = "$argon2id$v=19$m=8,t=1,p=1$YnBTcRM4oTOMoigHUnAkyw$eBN2is9oO3Gq00BMfeFAE1tGjNG1w4+fNTGWIvGxdfA"
RUST_CRATE = """
[package]
name = "hashes"
version = "0.1.0"
edition = "2021"

[dependencies]
pbkdf2 = { version = "0.11", features = ["simple"] }
"""
DEBIANS_CRATES = """
[source.crates-io]
replace-with = "debian"

[source.debian]
directory = "/usr/share/cargo/registry"
"""
RUST_PROGRAM = """
use pbkdf2::password_hash::{Ident, PasswordHasher, SaltString};
use pbkdf2::{Params, Pbkdf2};

fn main() {
    let salt = SaltString::b64_encode(b"saltSALTsaltSALTsaltSALTsaltSALTsalt").unwrap();
    for id in ["pbkdf2-sha256", "pbkdf2-sha512"] {
        let id = Some(Ident::new(id).unwrap());
        let params = Params { rounds: 4096, output_length: 40 };
        let hash = Pbkdf2.hash_password_customized(b"passwordPASSWORDpassword", id, None, params, &salt);
        println!("{}", hash.unwrap());
    }
}
"""


def unpadded(octets):
    return base64.b64encode(octets).decode().rstrip("=")


def reference_program(*words):
    """What `argon2` writes by its option -e."""
    command = ["argon2", SALT.decode(), *words, "-e"]
    return subprocess.run(command, input=PASSWORD, stdout=subprocess.PIPE, check=True).stdout.decode().strip()


def argon2_cffi():
    kind = argon2.low_level.Type.D
    return argon2.low_level.hash_secret(PASSWORD, WIDE_SALT, 3, 64, 2, 64, kind).decode()


def passlib_argon2():
    """passlib writes no version where it is the first one."""
    with_any_hash = f"$argon2i$m=65536,t=2,p=1${unpadded(SALT)}${unpadded(bytes(32))}"
    return passlib.argon2.genhash(PASSWORD, with_any_hash)


def checked_php():
    code = f"exit(password_verify('{PASSWORD.decode()}', '{PHP}') ? 0 : 1);"
    subprocess.run(["php", "-r", code], check=True)
    return PHP


def checked_libsodium():
    assert nacl.pwhash.verify(LIBSODIUM.encode(), PASSWORD)
    return LIBSODIUM


def rust_pbkdf2():
    """The two lines of a program over the crate that Debian has."""
    with tempfile.TemporaryDirectory() as folder:
        files = {"Cargo.toml": RUST_CRATE, ".cargo/config.toml": DEBIANS_CRATES, "src/main.rs": RUST_PROGRAM}
        for name, text in files.items():
            path = Path(folder) / name
            path.parent.mkdir(exist_ok=True)
            path.write_text(text)
        command = ["cargo", "run", "--offline", "--quiet"]
        return subprocess.run(command, cwd=folder, stdout=subprocess.PIPE, check=True).stdout.decode().split()


def phc_strings():
    yield "argon2 -i -t 2 -m 16 -p 1 -l 32", reference_program("-i", "-t", "2", "-m", "16", "-p", "1", "-l", "32")
    yield "argon2 -id -v 10 -l 24", reference_program("-id", "-v", "10", "-l", "24")
    yield "argon2-cffi, Argon2d", argon2_cffi()
    yield "passlib, Argon2i in its first version", passlib_argon2()
    yield "passlib, scrypt", passlib.scrypt.using(rounds=4, salt=SALT).hash(PASSWORD)
    yield "PHP, PASSWORD_ARGON2ID", checked_php()
    yield "libsodium, Argon2id", checked_libsodium()
    for text in rust_pbkdf2():
        yield "the Rust crate pbkdf2, another password", text


def other_formats():
    wide = WIDE_SALT[:16]
    yield "passlib, PBKDF2: rounds in place of parameters, `.` for `+`", passlib.pbkdf2_sha256.using(
        rounds=1000, salt=wide
    ).hash(PASSWORD)
    yield "passlib, PBKDF2: rounds in place of parameters", passlib.pbkdf2_sha512.using(rounds=1000, salt=SALT).hash(
        PASSWORD
    )
    yield "passlib, bcrypt over SHA-256: the version is a parameter, another Base64", passlib.bcrypt_sha256.using(
        rounds=4, salt="n79VH.0Q2TMWmt3Oqt9uku"
    ).hash(PASSWORD)
    yield "libxcrypt, SHA-256: another Base64", crypt.crypt(PASSWORD.decode(), "$5$rounds=1000$somesalt$")
    yield "libxcrypt, yescrypt: parameters without names", crypt.crypt(PASSWORD.decode(), "$y$j9T$somesaltsome$")


def case(program, text, answer):
    return f"# {program}: {text}\nphc-string {text.encode().hex()} = {answer}\n"


FILE.write_text(
    "# Known answers of PHC strings, written by tests/vectors/phc_strings.py.\n"
    + "\n# PHC strings of other programs\n"
    + "".join(case(program, text, text.encode().hex()) for program, text in phc_strings())
    + "\n# other formats of other programs\n"
    + "".join(case(program, text, "!EncodingInvalid") for program, text in other_formats())
)
