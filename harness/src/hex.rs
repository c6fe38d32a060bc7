//! Lower-case hexadecimal, as in the vector files.

pub fn decode(text: &str) -> Vec<u8> {
    assert!(text.len().is_multiple_of(2), "odd number of hex digits: {text}");
    text.as_bytes().chunks(2).map(|pair| 16 * nibble(pair[0]) + nibble(pair[1])).collect()
}

fn nibble(digit: u8) -> u8 {
    match digit {
        b'0'..=b'9' => digit - b'0',
        b'a'..=b'f' => digit - b'a' + 10,
        _ => panic!("not a hex digit: {}", digit as char),
    }
}

pub fn encode(bytes: &[u8]) -> String {
    bytes.iter().map(|byte| format!("{byte:02x}")).collect()
}

#[cfg(test)]
mod tests {
    use super::*;

    #[test]
    fn both_ways() {
        assert_eq!(decode("00ff3a"), [0x00, 0xff, 0x3a]);
        assert_eq!(encode(&[0x00, 0xff, 0x3a]), "00ff3a");
        assert_eq!(decode(""), []);
    }
}
