//! Whole keys made by the reference.

use crate::parallel;
use crate::reference::lms::{self, Types, IDENTIFIER, N};
use crate::rng::Rng;

pub struct Key {
    pub types: Types,
    pub identifier: Vec<u8>,
    pub seed: Vec<u8>,
    /// Node r at place r, nothing at place 0.
    pub tree: Vec<Vec<u8>>,
    pub public: Vec<u8>,
}

impl Key {
    /// The leaves are made in parallel.
    pub fn make(types: Types, identifier: &[u8], seed: &[u8]) -> Key {
        let numbers: Vec<u32> = (0..types.leaves()).collect();
        let leaves = parallel::map(&numbers, |&q| lms::leaf(types, identifier, q, seed));
        Key::of_leaves(types, identifier, seed, leaves)
    }

    pub fn random(types: Types, rng: &mut Rng) -> Key {
        Key::make(types, &rng.bytes(IDENTIFIER), &rng.bytes(N))
    }

    /// A key that signs with the given leaves alone: the others are random nodes, which spares nearly all the work, and
    /// which no check of a signature under one of the given leaves can tell from made ones.
    pub fn with_leaves(types: Types, usable: &[u32], rng: &mut Rng) -> Key {
        let (identifier, seed) = (rng.bytes(IDENTIFIER), rng.bytes(N));
        let leaves = (0..types.leaves()).map(|q| match usable.contains(&q) {
            true => lms::leaf(types, &identifier, q, &seed),
            false => rng.bytes(N),
        });
        let leaves = leaves.collect();
        Key::of_leaves(types, &identifier, &seed, leaves)
    }

    fn of_leaves(types: Types, identifier: &[u8], seed: &[u8], leaves: Vec<Vec<u8>>) -> Key {
        let tree = lms::tree_of_leaves(identifier, leaves);
        let public = lms::public_key(types, identifier, &tree[1]);
        Key { types, identifier: identifier.to_vec(), seed: seed.to_vec(), tree, public }
    }

    pub fn sign(&self, q: u32, randomizer: &[u8], message: &[u8]) -> Vec<u8> {
        lms::sign(self.types, &self.tree, q, &self.seed, &self.identifier, randomizer, message)
    }

    /// The tree as the signer reads it; only of the engine's types.
    pub fn lent_tree(&self, first: &[u8]) -> Vec<u8> {
        assert_eq!((self.types, first.len()), (Types::ENGINE, N));
        [first, &self.tree.concat()].concat()
    }
}
