//! Answers kept for questions that the batteries ask many times.

use std::collections::BTreeMap;
use std::sync::Mutex;

pub struct Memo<Q, A>(Mutex<BTreeMap<Q, A>>);

/// Answers kept before all are forgotten: about 100 megabytes of signatures.
const KEPT: usize = 60_000;

impl<Q: Ord, A: Clone> Memo<Q, A> {
    pub const fn new() -> Memo<Q, A> {
        Memo(Mutex::new(BTreeMap::new()))
    }

    /// The kept answer, or the one that `find` gives. Others may ask meanwhile.
    pub fn answer(&self, question: Q, find: impl FnOnce(&Q) -> A) -> A {
        let known = self.0.lock().unwrap().get(&question).cloned();
        known.unwrap_or_else(|| {
            let answer = find(&question);
            let mut kept = self.0.lock().unwrap();
            if kept.len() == KEPT {
                kept.clear();
            }
            kept.insert(question, answer.clone());
            answer
        })
    }
}

impl<Q: Ord, A: Clone> Default for Memo<Q, A> {
    fn default() -> Self {
        Memo::new()
    }
}

#[cfg(test)]
mod tests {
    use super::Memo;

    #[test]
    fn a_question_is_answered_once() {
        let memo = Memo::new();
        let mut asked = 0;
        for number in [3, 4, 3, 3, 4] {
            let double = memo.answer(number, |number| {
                asked += 1;
                2 * number
            });
            assert_eq!(double, 2 * number);
        }
        assert_eq!(asked, 2);
    }
}
