//! Lent buffers and structs with guard bytes before and after.

use crate::rng::Rng;

const MARGIN: usize = 64;

pub struct Guarded {
    whole: Vec<u8>,
    guards: [Vec<u8>; 2],
}

impl Guarded {
    pub fn new(contents: &[u8], rng: &mut Rng) -> Guarded {
        let guards = [rng.bytes(MARGIN), rng.bytes(MARGIN)];
        Guarded { whole: [&guards[0], contents, &guards[1]].concat(), guards }
    }

    fn end(&self) -> usize {
        self.whole.len() - MARGIN
    }

    pub fn lent(&self) -> &[u8] {
        &self.whole[MARGIN..self.end()]
    }

    pub fn lent_mut(&mut self) -> &mut [u8] {
        let end = self.end();
        &mut self.whole[MARGIN..end]
    }

    /// An error if the guards are touched or the contents are not the expected ones.
    pub fn expect(&self, name: &str, contents: &[u8]) -> Result<(), String> {
        if self.whole[..MARGIN] != self.guards[0] {
            return Err(format!("{name}: bytes before it were written"));
        }
        if self.whole[self.end()..] != self.guards[1] {
            return Err(format!("{name}: bytes after it were written"));
        }
        assert_eq!(self.lent().len(), contents.len());
        match self.lent().iter().zip(contents).position(|(is, expected)| is != expected) {
            Some(at) => Err(format!("{name}: byte {at} of {} differs", contents.len())),
            None => Ok(()),
        }
    }
}

#[repr(C)]
pub struct GuardedItem<T> {
    before: [u8; MARGIN],
    item: T,
    after: [u8; MARGIN],
    guards: [[u8; MARGIN]; 2],
}

impl<T> GuardedItem<T> {
    pub fn new(item: T, rng: &mut Rng) -> GuardedItem<T> {
        let guards = [0; 2].map(|_: u8| rng.bytes(MARGIN).try_into().expect("a margin"));
        GuardedItem { before: guards[0], item, after: guards[1], guards }
    }

    pub fn lent_mut(&mut self) -> &mut T {
        &mut self.item
    }

    /// The contents, if the guards are as they were.
    pub fn taken(self, name: &str) -> Result<T, String> {
        if [self.before, self.after] == self.guards {
            Ok(self.item)
        } else {
            Err(format!("{name}: bytes around it were written"))
        }
    }
}

#[cfg(test)]
mod tests {
    use super::*;

    #[test]
    fn a_touched_byte_is_told() {
        let fresh = || Guarded::new(&[1, 2, 3], &mut Rng::new(1, "guarded"));
        assert_eq!(fresh().lent(), [1, 2, 3]);
        assert_eq!(fresh().expect("x", &[1, 2, 3]), Ok(()));
        assert_eq!(fresh().expect("x", &[1, 2, 4]), Err("x: byte 2 of 3 differs".to_string()));
        for (at, told) in [(MARGIN - 1, "before"), (MARGIN + 3, "after")] {
            let mut touched = fresh();
            touched.whole[at] ^= 1;
            assert_eq!(touched.expect("x", &[1, 2, 3]), Err(format!("x: bytes {told} it were written")));
        }
    }

    #[test]
    fn a_byte_touched_beside_an_item_is_told() {
        let fresh = || GuardedItem::new(5u32, &mut Rng::new(1, "guarded"));
        assert_eq!(fresh().taken("x"), Ok(5));
        let mut changed = fresh();
        *changed.lent_mut() = 6;
        assert_eq!(changed.taken("x"), Ok(6));
        let touches: [fn(&mut GuardedItem<u32>); 2] = [|item| item.before[MARGIN - 1] ^= 1, |item| item.after[0] ^= 1];
        for touch in touches {
            let mut touched = fresh();
            touch(&mut touched);
            assert_eq!(touched.taken("x"), Err("x: bytes around it were written".to_string()));
        }
    }
}
