//! Three calls of the library:
//!
//!     calls transfer STORE PASSWORD-FILE NEW-PASSWORD-FILE     writes the certificates and the sealed keys of a store as PEM text
//!     calls upgrade STORE PASSWORD-FILE NEW-PASSWORD-FILE      writes the store under the algorithms of today
//!     calls create KEY CERTIFICATES PASSWORD-FILE [NAME [KEY-PASSWORD-FILE]]     writes a store of PEM texts
//!
//!     rustc --edition 2021 -O calls.rs -L PREFIX/lib -l static=pkcs12
use std::io::{Read, Write};
use std::process::ExitCode;

mod pkcs12 {
    const DONE: u32 = 0;
    const ROOM: u32 = 100;

    /// How many random octets a new store takes.
    pub const CREATE_RANDOM: usize = 72;

    extern "C" {
        fn pkcs12_room(store_len: usize) -> usize;
        fn pkcs12_transfer_pem(
            store: *const u8,
            store_len: usize,
            password: *const u8,
            password_len: usize,
            new_password: *const u8,
            new_password_len: usize,
            rounds: u32,
            limit: u64,
            random: *const u8,
            random_len: usize,
            output: *mut u8,
            output_len: usize,
            needed: *mut usize,
        ) -> u32;
        fn pkcs12_upgrade(
            store: *const u8,
            store_len: usize,
            password: *const u8,
            password_len: usize,
            new_password: *const u8,
            new_password_len: usize,
            rounds: u32,
            limit: u64,
            random: *const u8,
            random_len: usize,
            output: *mut u8,
            output_len: usize,
            needed: *mut usize,
        ) -> u32;
        fn pkcs12_create_pem(
            key: *const u8,
            key_len: usize,
            certificates: *const u8,
            certificates_len: usize,
            key_password: *const u8,
            key_password_len: usize,
            name: *const u8,
            name_len: usize,
            password: *const u8,
            password_len: usize,
            rounds: u32,
            limit: u32,
            random: *const u8,
            random_len: usize,
            output: *mut u8,
            output_len: usize,
            needed: *mut usize,
        ) -> u32;
    }

    /// Why a call is refused: one of the numbers of `pkcs12.h`.
    #[derive(Clone, Copy, Debug, PartialEq, Eq)]
    pub struct Refused(pub u32);

    impl std::fmt::Display for Refused {
        fn fmt(&self, f: &mut std::fmt::Formatter<'_>) -> std::fmt::Result {
            let meaning = match self.0 {
                2 => "the rounds are not 1 to 100,000,000",
                7 => "out of memory",
                8 => "the private key is encrypted, and no password is given",
                10 => "no PKCS#12 store in DER",
                11 => "something is of a kind, or under an algorithm, that is not opened",
                12 => "no MAC, so a change to the store would go unnoticed",
                13 => "the MAC is made neither with SHA-1 nor with SHA-256",
                14 => "the store asks for zero iterations",
                15 => "opening takes more steps than the limit",
                16 => "the password is wrong, or the store was changed",
                17 => "the MAC agrees, but the contents are damaged",
                18 => "the password agrees with the MAC, but a part does not decrypt with it",
                19 => "a private key opens, but is not a PKCS#8 key",
                20 => "too few random octets",
                21 => "the store has more than 16,777,215 octets",
                22 => "a password is not UTF-8, or is too long",
                30 => "a PEM text has a block that is not whole, or no Base64",
                31 => "the PEM text has no private key",
                32 => "the PEM text has more than one private key",
                33 => "the private key is not what its label names",
                34 => "the private key does not open under its password",
                35 => "the PEM text has no certificate",
                36 => "what the PEM text has as a certificate is no X.509 certificate",
                37 => "each certificate is that of another private key",
                38 => "the friendly name is not UTF-8",
                _ => "see pkcs12.h",
            };
            write!(f, "refused ({}): {meaning}", self.0)
        }
    }

    /// The PEM text of a store, its keys sealed under the new password. As many random octets as the store has are always enough, and
    /// so is the room.
    ///
    /// Slices are never null, valid for their length, and cannot overlap one that is written: so no call of this is unsafe.
    pub fn transfer_pem(
        store: &[u8],
        password: &[u8],
        new_password: &[u8],
        rounds: u32,
        limit: u64,
        random: &[u8],
    ) -> Result<Vec<u8>, Refused> {
        let mut output = vec![0; unsafe { pkcs12_room(store.len()) }];
        let mut needed = 0;
        let number = unsafe {
            pkcs12_transfer_pem(
                store.as_ptr(),
                store.len(),
                password.as_ptr(),
                password.len(),
                new_password.as_ptr(),
                new_password.len(),
                rounds,
                limit,
                random.as_ptr(),
                random.len(),
                output.as_mut_ptr(),
                output.len(),
                &mut needed,
            )
        };
        if number != DONE {
            return Err(Refused(number));
        }
        output.truncate(needed);
        Ok(output)
    }

    /// What a call writes into as much room as it needs: with `room` octets first, and again where that is too little.
    fn written(
        room: usize,
        call: impl Fn(*mut u8, usize, *mut usize) -> u32,
    ) -> Result<Vec<u8>, Refused> {
        let mut output = vec![0; room];
        loop {
            let mut needed = 0;
            let number = call(output.as_mut_ptr(), output.len(), &mut needed);
            match number {
                DONE => {
                    output.truncate(needed);
                    return Ok(output);
                }
                ROOM => output = vec![0; needed],
                _ => return Err(Refused(number)),
            }
        }
    }

    /// The store under the algorithms of today, with parts and a MAC of so many rounds. `random` has 32 octets for each encrypted part
    /// and 16 for the MAC. The new password may be the old one.
    pub fn upgrade(
        store: &[u8],
        password: &[u8],
        new_password: &[u8],
        rounds: u32,
        limit: u64,
        random: &[u8],
    ) -> Result<Vec<u8>, Refused> {
        written(2 * store.len() + 4096, |output, output_len, needed| unsafe {
            pkcs12_upgrade(
                store.as_ptr(),
                store.len(),
                password.as_ptr(),
                password.len(),
                new_password.as_ptr(),
                new_password.len(),
                rounds,
                limit,
                random.as_ptr(),
                random.len(),
                output,
                output_len,
                needed,
            )
        })
    }

    /// A private key and its certificates in PEM texts, which may be one text.
    #[derive(Clone, Copy)]
    pub struct Pem<'a> {
        pub key: &'a [u8],
        pub certificates: &'a [u8],
        /// That of a private key that is encrypted.
        pub key_password: Option<&'a [u8]>,
        /// The friendly name of the private key and of its certificate.
        pub name: Option<&'a str>,
    }

    /// A store of what PEM texts have, of so many rounds. Opening the private key may take `limit` rounds at most.
    pub fn create_pem(
        pem: Pem<'_>,
        password: &[u8],
        rounds: u32,
        limit: u32,
        random: &[u8; CREATE_RANDOM],
    ) -> Result<Vec<u8>, Refused> {
        let key_password = pem.key_password.unwrap_or_default();
        let name = pem.name.unwrap_or_default();
        let room = 4096 + pem.key.len() + pem.certificates.len() + 4 * name.len();
        written(room, |output, output_len, needed| unsafe {
            pkcs12_create_pem(
                pem.key.as_ptr(),
                pem.key.len(),
                pem.certificates.as_ptr(),
                pem.certificates.len(),
                key_password.as_ptr(),
                key_password.len(),
                name.as_ptr(),
                name.len(),
                password.as_ptr(),
                password.len(),
                rounds,
                limit,
                random.as_ptr(),
                random.len(),
                output,
                output_len,
                needed,
            )
        })
    }
}

/// The octets of a file, and of one that is longer than a store may be its first ones.
fn contents(path: &str) -> std::io::Result<Vec<u8>> {
    let mut octets = Vec::new();
    std::fs::File::open(path)?.take(16_777_216).read_to_end(&mut octets)?;
    Ok(octets)
}

fn first_line(path: &str) -> std::io::Result<Vec<u8>> {
    let octets = contents(path)?;
    let line = octets.split(|octet| *octet == b'\n').next().unwrap_or_default();
    Ok(line.strip_suffix(b"\r").unwrap_or(line).to_vec())
}

/// So many random octets of the system.
fn random(size: usize) -> std::io::Result<Vec<u8>> {
    let mut octets = vec![0; size];
    std::fs::File::open("/dev/urandom")?.read_exact(&mut octets)?;
    Ok(octets)
}

type Written = std::io::Result<Result<Vec<u8>, pkcs12::Refused>>;

/// The most private keys and encrypted contents that are sealed, since each takes some time.
const PARTS: usize = 1000;

fn transfer(words: &[String]) -> Written {
    let store = contents(&words[0])?;
    // As many as the store has are always enough.
    let random = random(store.len().min(32 * PARTS))?;
    let (password, new_password) = (first_line(&words[1])?, first_line(&words[2])?);
    Ok(pkcs12::transfer_pem(&store, &password, &new_password, 600_000, 100_000_000, &random))
}

fn upgrade(words: &[String]) -> Written {
    let store = contents(&words[0])?;
    let random = random(32 * PARTS + 16)?;
    let (password, new_password) = (first_line(&words[1])?, first_line(&words[2])?);
    Ok(pkcs12::upgrade(&store, &password, &new_password, 600_000, 100_000_000, &random))
}

fn create(words: &[String]) -> Written {
    let (key, certificates) = (contents(&words[0])?, contents(&words[1])?);
    let password = first_line(&words[2])?;
    let key_password = words.get(4).map(|path| first_line(path)).transpose()?;
    let mut random = [0; pkcs12::CREATE_RANDOM];
    std::fs::File::open("/dev/urandom")?.read_exact(&mut random)?;
    let pem = pkcs12::Pem {
        key: &key,
        certificates: &certificates,
        key_password: key_password.as_deref(),
        name: words.get(3).map(String::as_str),
    };
    Ok(pkcs12::create_pem(pem, &password, 600_000, 100_000_000, &random))
}

fn main() -> ExitCode {
    let words: Vec<String> = std::env::args().skip(1).collect();
    let written = match (words.first().map(String::as_str), words.len()) {
        (Some("transfer"), 4) => transfer(&words[1..]),
        (Some("upgrade"), 4) => upgrade(&words[1..]),
        (Some("create"), 4..=6) => create(&words[1..]),
        _ => {
            eprintln!("usage: calls transfer|upgrade STORE PASSWORD-FILE NEW-PASSWORD-FILE");
            eprintln!("       calls create KEY CERTIFICATES PASSWORD-FILE [NAME [KEY-PASSWORD-FILE]]");
            return ExitCode::from(2);
        }
    };
    match written {
        Ok(Ok(octets)) => match std::io::stdout().write_all(&octets) {
            Ok(()) => ExitCode::SUCCESS,
            Err(_) => ExitCode::from(4),
        },
        Ok(Err(refused)) => {
            eprintln!("{refused}");
            ExitCode::from(refused.0 as u8)
        }
        Err(fault) => {
            eprintln!("{fault}");
            ExitCode::from(3)
        }
    }
}
