//! LMS (RFC 8554, section 5) over SHA-256 with n = m = 32, for heights 5 and 10.

use super::lmots::{hash, ots_candidate, ots_key, ots_sign, u32_at};

pub use super::lmots::{Types, IDENTIFIER, N};

pub const PUBLIC_KEY: usize = 4 + 4 + IDENTIFIER + N;

const D_LEAF: u16 = 0x8282;
const D_INTR: u16 = 0x8383;

fn leaf_node(identifier: &[u8], node: u32, ots_key: &[u8]) -> Vec<u8> {
    hash(&[identifier, &node.to_be_bytes(), &D_LEAF.to_be_bytes(), ots_key])
}

fn inner_node(identifier: &[u8], node: u32, left: &[u8], right: &[u8]) -> Vec<u8> {
    hash(&[identifier, &node.to_be_bytes(), &D_INTR.to_be_bytes(), left, right])
}

/// The node of leaf q.
pub fn leaf(types: Types, identifier: &[u8], q: u32, seed: &[u8]) -> Vec<u8> {
    leaf_node(identifier, types.leaves() + q, &ots_key(types, identifier, q, seed))
}

/// All nodes over the given leaves: node r at place r, and nothing at place 0.
pub fn tree_of_leaves(identifier: &[u8], leaves: Vec<Vec<u8>>) -> Vec<Vec<u8>> {
    let count = leaves.len();
    let mut nodes = vec![Vec::new(); count];
    nodes.extend(leaves);
    for r in (1..count).rev() {
        nodes[r] = inner_node(identifier, r as u32, &nodes[2 * r], &nodes[2 * r + 1]);
    }
    nodes
}

/// The whole tree of a key (section 5.3).
pub fn tree(types: Types, identifier: &[u8], seed: &[u8]) -> Vec<Vec<u8>> {
    tree_of_leaves(identifier, (0..types.leaves()).map(|q| leaf(types, identifier, q, seed)).collect())
}

pub fn public_key(types: Types, identifier: &[u8], root: &[u8]) -> Vec<u8> {
    [&types.lms.to_be_bytes(), &types.ots.to_be_bytes(), identifier, root].concat()
}

/// The places in the tree of the path of leaf q: its sibling first, a child of the root last.
pub fn path_places(types: Types, q: u32) -> Vec<usize> {
    (0..types.h).map(|i| (((types.leaves() + q) >> i) ^ 1) as usize).collect()
}

/// Section 5.4.1, with the leaf and the randomizer chosen by the caller.
pub fn sign(
    types: Types,
    tree: &[Vec<u8>],
    q: u32,
    seed: &[u8],
    identifier: &[u8],
    randomizer: &[u8],
    message: &[u8],
) -> Vec<u8> {
    let mut signature = q.to_be_bytes().to_vec();
    signature.extend(ots_sign(types, identifier, q, seed, randomizer, message));
    signature.extend(types.lms.to_be_bytes());
    for place in path_places(types, q) {
        signature.extend(&tree[place]);
    }
    signature
}

/// Algorithm 6.
pub fn verify(key: &[u8], message: &[u8], signature: &[u8]) -> bool {
    if key.len() < 8 {
        return false;
    }
    let Some(types) = Types::of(u32_at(key, 0), u32_at(key, 4)) else {
        return false;
    };
    if key.len() != PUBLIC_KEY {
        return false;
    }
    let identifier = &key[8..24];
    let root = &key[24..];
    root_candidate(types, identifier, message, signature).is_some_and(|candidate| candidate == root)
}

/// Algorithm 6a; none is the RFC's INVALID.
fn root_candidate(types: Types, identifier: &[u8], message: &[u8], signature: &[u8]) -> Option<Vec<u8>> {
    if signature.len() < 8 {
        return None;
    }
    let q = u32_at(signature, 0);
    if u32_at(signature, 4) != types.ots {
        return None;
    }
    if signature.len() < types.path_at() {
        return None;
    }
    if u32_at(signature, types.lms_type_at()) != types.lms {
        return None;
    }
    if q >= types.leaves() || signature.len() != types.signature() {
        return None;
    }
    let ots_key = ots_candidate(types, identifier, q, message, &signature[4..types.lms_type_at()])?;
    let mut node = types.leaves() + q;
    let mut value = leaf_node(identifier, node, &ots_key);
    for sibling in signature[types.path_at()..].chunks(N) {
        value = if node % 2 == 1 {
            inner_node(identifier, node / 2, sibling, &value)
        } else {
            inner_node(identifier, node / 2, &value, sibling)
        };
        node /= 2;
    }
    Some(value)
}
