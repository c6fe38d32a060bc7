//! Document 01's program for the yard, from its whole input to its whole output.

use super::layout::{SIGNATURE, VALUE};
use super::lms::PUBLIC_KEY;
use super::record::Record;
use super::{engine, layout};

const MOST_SEATS: u32 = 7;

/// The output for an input.
pub fn yard(input: &[u8]) -> String {
    let mut yard = Yard { rest: input, printed: String::new() };
    if yard.run().is_none() {
        yard.print(9, 0);
    }
    yard.printed
}

struct Yard<'a> {
    rest: &'a [u8],
    printed: String,
}

impl<'a> Yard<'a> {
    /// None at an unknown command, a short operand, a first command other than 0x10 or a second 0x10.
    fn run(&mut self) -> Option<()> {
        if self.rest.is_empty() {
            return Some(());
        }
        let Some(0x10) = self.number(1) else { return None };
        let (n, seat, round) = (self.number(1)?, self.number(1)?, self.number(2)?);
        if n > MOST_SEATS {
            self.print(1, 0);
            return Some(());
        }
        let keys = self.operand(PUBLIC_KEY * n as usize)?;
        let opened = engine::open(n, seat, round, keys);
        self.print(opened.number, 0);
        if opened.number == 0 {
            self.calls(opened.record, keys)
        } else {
            Some(())
        }
    }

    fn calls(&mut self, mut record: Record, keys: &[u8]) -> Option<()> {
        let mut store = vec![0; layout::store(MOST_SEATS)];
        let mut out = vec![0; layout::out(MOST_SEATS)];
        while !self.rest.is_empty() {
            let stepped = match self.number(1)? {
                0x11 => {
                    let length = self.number(2)? as usize;
                    engine::step(record, keys, &mut store, self.operand(length)?, &mut out)
                }
                0x12 => {
                    let (value, signature) = (self.operand(VALUE)?, self.operand(SIGNATURE)?);
                    engine::submit(record, keys, &mut store, value, signature, &mut out)
                }
                _ => return None,
            };
            self.print(stepped.number, stepped.written);
            record = stepped.record;
        }
        Some(())
    }

    fn operand(&mut self, length: usize) -> Option<&'a [u8]> {
        let (operand, rest) = self.rest.split_at_checked(length)?;
        self.rest = rest;
        Some(operand)
    }

    fn number(&mut self, width: usize) -> Option<u32> {
        Some(self.operand(width)?.iter().fold(0, |number, &byte| 256 * number + u32::from(byte)))
    }

    fn print(&mut self, number: u32, written: u32) {
        self.printed += &format!("{number} {written}\n");
    }
}
