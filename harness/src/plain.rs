//! Plain C: c/plain.c.

use crate::subject::{c_calls, c_hashes};

pub struct Plain;

c_calls!(Plain: plain_check_signature, plain_make_key, plain_sign);
c_hashes!(Plain: plain_sha256, plain_compress_many);
