//! SHA-256 (FIPS 180-4), sentence by sentence; the constants come from the standard's rule.

/// The largest `r` with `r` to the power `exponent` not above `n`, for `r` below 2^40 and exponents up to 3.
const fn integer_root(n: u128, exponent: u32) -> u128 {
    let mut low = 0;
    let mut high = 1 << 40;
    while high - low > 1 {
        let middle: u128 = (low + high) / 2;
        if middle.pow(exponent) <= n {
            low = middle;
        } else {
            high = middle;
        }
    }
    low
}

const fn is_prime(n: u128) -> bool {
    let mut divisor = 2;
    while divisor * divisor <= n {
        if n.is_multiple_of(divisor) {
            return false;
        }
        divisor += 1;
    }
    n >= 2
}

/// The first 32 bits of the fractional parts of the `exponent`-th roots of the first `N` primes (4.2.2, 5.3.3).
const fn fractional_parts<const N: usize>(exponent: u32) -> [u32; N] {
    let mut parts = [0; N];
    let mut found = 0;
    let mut candidate = 2;
    while found < N {
        if is_prime(candidate) {
            parts[found] = integer_root(candidate << (32 * exponent), exponent) as u32;
            found += 1;
        }
        candidate += 1;
    }
    parts
}

pub const K: [u32; 64] = fractional_parts(3);
pub const INITIAL: [u32; 8] = fractional_parts(2);

fn ch(x: u32, y: u32, z: u32) -> u32 {
    (x & y) ^ (!x & z)
}

fn maj(x: u32, y: u32, z: u32) -> u32 {
    (x & y) ^ (x & z) ^ (y & z)
}

fn big_sigma0(x: u32) -> u32 {
    x.rotate_right(2) ^ x.rotate_right(13) ^ x.rotate_right(22)
}

fn big_sigma1(x: u32) -> u32 {
    x.rotate_right(6) ^ x.rotate_right(11) ^ x.rotate_right(25)
}

fn small_sigma0(x: u32) -> u32 {
    x.rotate_right(7) ^ x.rotate_right(18) ^ (x >> 3)
}

fn small_sigma1(x: u32) -> u32 {
    x.rotate_right(17) ^ x.rotate_right(19) ^ (x >> 10)
}

fn word(bytes: &[u8]) -> u32 {
    u32::from_be_bytes([bytes[0], bytes[1], bytes[2], bytes[3]])
}

/// One block of 64 bytes taken into the state (6.2.2).
pub fn compress(state: [u32; 8], block: &[u8]) -> [u32; 8] {
    assert_eq!(block.len(), 64);
    let mut w = [0u32; 64];
    for t in 0..16 {
        w[t] = word(&block[4 * t..4 * t + 4]);
    }
    for t in 16..64 {
        w[t] =
            small_sigma1(w[t - 2]).wrapping_add(w[t - 7]).wrapping_add(small_sigma0(w[t - 15])).wrapping_add(w[t - 16]);
    }
    let [mut a, mut b, mut c, mut d, mut e, mut f, mut g, mut h] = state;
    for t in 0..64 {
        let t1 = h.wrapping_add(big_sigma1(e)).wrapping_add(ch(e, f, g)).wrapping_add(K[t]).wrapping_add(w[t]);
        let t2 = big_sigma0(a).wrapping_add(maj(a, b, c));
        h = g;
        g = f;
        f = e;
        e = d.wrapping_add(t1);
        d = c;
        c = b;
        b = a;
        a = t1.wrapping_add(t2);
    }
    let rounds = [a, b, c, d, e, f, g, h];
    std::array::from_fn(|i| state[i].wrapping_add(rounds[i]))
}

/// The message with its padding: a positive multiple of 64 bytes (5.1.1).
pub fn padded(message: &[u8]) -> Vec<u8> {
    let mut bytes = message.to_vec();
    bytes.push(0x80);
    while bytes.len() % 64 != 56 {
        bytes.push(0);
    }
    bytes.extend_from_slice(&(8 * message.len() as u64).to_be_bytes());
    bytes
}

pub fn state_of(bytes: &[u8]) -> [u32; 8] {
    std::array::from_fn(|i| word(&bytes[4 * i..4 * i + 4]))
}

pub fn bytes_of(words: &[u32]) -> Vec<u8> {
    words.iter().flat_map(|word| word.to_be_bytes()).collect()
}

pub fn digest(message: &[u8]) -> Vec<u8> {
    let mut state = INITIAL;
    for block in padded(message).chunks(64) {
        state = compress(state, block);
    }
    bytes_of(&state)
}
