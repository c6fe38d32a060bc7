//! Subjects of tests and measurements: C functions behind safe faces.

use crate::reference::record::Written;

/// The library's calls.
pub trait Calls: Sync {
    fn check_signature(&self, key: &[u8], message: &[u8], signature: &[u8]) -> u32;

    fn make_key(&self, seed: &[u8], identifier: &[u8], tree: &mut [u8], out: &mut [u8]) -> Written;

    #[allow(clippy::too_many_arguments)]
    fn sign(
        &self,
        leaf: u32,
        seed: &[u8],
        identifier: &[u8],
        randomizer: &[u8],
        tree: &[u8],
        message: &[u8],
        out: &mut [u8],
    ) -> Written;
}

/// The layers below the calls: 0, or 7 when `out` is shorter than 32 bytes. A state is 32 bytes, a block 64.
pub trait Hashes: Sync {
    fn sha256(&self, message: &[u8], out: &mut [u8]) -> u32;

    /// The block taken in `count` times in a row.
    fn compress_many(&self, count: u32, state: &[u8], block: &[u8], out: &mut [u8]) -> u32;
}

/// The round constants of SHA-256 that a subject works out.
pub trait Constants: Sync {
    /// Their bytes, big-endian: 0, or 7 when `out` is shorter than 256 bytes.
    fn round_constants(&self, out: &mut [u8]) -> u32;
}

/// All of SHA-256.
pub trait Sha256: Hashes + Constants {}

impl<T: Hashes + Constants> Sha256 for T {}

/// Gives a type the calls of a module like [`crate::reference`].
#[macro_export]
macro_rules! calls_of {
    ($subject:ident: $($module:tt)+) => {
        impl $crate::subject::Calls for $subject {
            fn check_signature(&self, key: &[u8], message: &[u8], signature: &[u8]) -> u32 {
                $($module)+::calls::check_signature(key, message, signature)
            }

            fn make_key(
                &self,
                seed: &[u8],
                identifier: &[u8],
                tree: &mut [u8],
                out: &mut [u8],
            ) -> $crate::reference::record::Written {
                $($module)+::calls::make_key(seed, identifier, tree, out)
            }

            fn sign(
                &self,
                leaf: u32,
                seed: &[u8],
                identifier: &[u8],
                randomizer: &[u8],
                tree: &[u8],
                message: &[u8],
                out: &mut [u8],
            ) -> $crate::reference::record::Written {
                $($module)+::calls::sign(leaf, seed, identifier, randomizer, tree, message, out)
            }
        }
    };
}

/// The same for [`Sha256`].
#[macro_export]
macro_rules! sha256_of {
    ($subject:ident: $($module:tt)+) => {
        impl $crate::subject::Hashes for $subject {
            fn sha256(&self, message: &[u8], out: &mut [u8]) -> u32 {
                $crate::subject::written_to(out, 32, || $($module)+::sha256::digest(message))
            }

            fn compress_many(&self, count: u32, state: &[u8], block: &[u8], out: &mut [u8]) -> u32 {
                use $($module)+::sha256::{bytes_of, compress, state_of};
                let many = || bytes_of(&(0..count).fold(state_of(state), |words, _| compress(words, block)));
                $crate::subject::written_to(out, 32, many)
            }
        }

        impl $crate::subject::Constants for $subject {
            fn round_constants(&self, out: &mut [u8]) -> u32 {
                use $($module)+::sha256::{bytes_of, K};
                $crate::subject::written_to(out, 256, || bytes_of(&K))
            }
        }
    };
}

/// The answer of a layer below the calls.
pub fn written_to(out: &mut [u8], length: usize, bytes: impl FnOnce() -> Vec<u8>) -> u32 {
    match out.get_mut(..length) {
        Some(part) => {
            part.copy_from_slice(&bytes());
            0
        }
        None => 7,
    }
}

/// Declares C functions and gives each a safe face of the same name: a slice passes as pointer and length.
macro_rules! c_functions {
    ($(fn $name:ident($($arguments:tt)*) -> $answer:ty;)*) => {
        $($crate::subject::c_functions!(@ $name $answer [] [] [] $($arguments)*,);)*
    };
    (@ $name:ident $answer:ty [$($face:tt)*] [$($c:tt)*] [$($passed:tt)*] $slice:ident: &[u8], $($more:tt)*) => {
        $crate::subject::c_functions!(@ $name $answer
            [$($face)* $slice: &[u8],]
            [$($c)* _: *const u8, _: usize,]
            [$($passed)* $slice.as_ptr(), $slice.len(),]
            $($more)*);
    };
    (@ $name:ident $answer:ty [$($face:tt)*] [$($c:tt)*] [$($passed:tt)*] $slice:ident: &mut [u8], $($more:tt)*) => {
        $crate::subject::c_functions!(@ $name $answer
            [$($face)* $slice: &mut [u8],]
            [$($c)* _: *mut u8, _: usize,]
            [$($passed)* $slice.as_mut_ptr(), $slice.len(),]
            $($more)*);
    };
    (@ $name:ident $answer:ty [$($face:tt)*] [$($c:tt)*] [$($passed:tt)*] $plain:ident: $type:ty, $($more:tt)*) => {
        $crate::subject::c_functions!(@ $name $answer
            [$($face)* $plain: $type,]
            [$($c)* _: $type,]
            [$($passed)* $plain,]
            $($more)*);
    };
    (@ $name:ident $answer:ty [$($face:tt)*] [$($c:tt)*] [$($passed:tt)*]) => {
        #[allow(clippy::too_many_arguments)]
        fn $name($($face)*) -> $answer {
            extern "C" {
                fn $name($($c)*) -> $answer;
            }
            unsafe { $name($($passed)*) }
        }
    };
}

/// Gives the C functions of [`Calls`] to a type.
macro_rules! c_calls {
    ($subject:ident: $check_signature:ident, $make_key:ident, $sign:ident) => {
        $crate::subject::c_functions! {
            fn $check_signature(key: &[u8], message: &[u8], signature: &[u8]) -> u32;
            fn $make_key(seed: &[u8], identifier: &[u8], tree: &mut [u8], out: &mut [u8]) -> $crate::reference::record::Written;
            fn $sign(
                leaf: u32,
                seed: &[u8],
                identifier: &[u8],
                randomizer: &[u8],
                tree: &[u8],
                message: &[u8],
                out: &mut [u8]
            ) -> $crate::reference::record::Written;
        }

        impl $crate::subject::Calls for $subject {
            fn check_signature(&self, key: &[u8], message: &[u8], signature: &[u8]) -> u32 {
                $check_signature(key, message, signature)
            }

            fn make_key(
                &self,
                seed: &[u8],
                identifier: &[u8],
                tree: &mut [u8],
                out: &mut [u8],
            ) -> $crate::reference::record::Written {
                $make_key(seed, identifier, tree, out)
            }

            fn sign(
                &self,
                leaf: u32,
                seed: &[u8],
                identifier: &[u8],
                randomizer: &[u8],
                tree: &[u8],
                message: &[u8],
                out: &mut [u8],
            ) -> $crate::reference::record::Written {
                $sign(leaf, seed, identifier, randomizer, tree, message, out)
            }
        }
    };
}

/// The same for [`Hashes`].
macro_rules! c_hashes {
    ($subject:ident: $sha256:ident, $compress_many:ident) => {
        $crate::subject::c_functions! {
            fn $sha256(message: &[u8], out: &mut [u8]) -> u32;
            fn $compress_many(count: u32, state: &[u8], block: &[u8], out: &mut [u8]) -> u32;
        }

        impl $crate::subject::Hashes for $subject {
            fn sha256(&self, message: &[u8], out: &mut [u8]) -> u32 {
                $sha256(message, out)
            }

            fn compress_many(&self, count: u32, state: &[u8], block: &[u8], out: &mut [u8]) -> u32 {
                assert_eq!((state.len(), block.len()), (32, 64));
                $compress_many(count, state, block, out)
            }
        }
    };
}

pub(crate) use {c_calls, c_functions, c_hashes};
