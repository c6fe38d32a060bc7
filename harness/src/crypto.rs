//! OpenSSL's libcrypto: c/crypto.c.

use crate::subject::c_hashes;

pub struct Libcrypto;

c_hashes!(Libcrypto: crypto_sha256, crypto_compress_many);
