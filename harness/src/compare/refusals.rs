//! Operands made wrong, alone and together.

use crate::reference::refusals::{place, ORDER};
use crate::rng::Rng;

type Spoil<C> = Box<dyn Fn(&mut C, &mut Rng)>;

/// The place of a condition in a call: its stage, then its place in the reference's order. Of two certificates, the first's
/// conditions are a stage before the second's.
type Place = (u32, usize);

/// A change to a right case that calls for a refusal.
pub struct Spoiler<C> {
    place: Place,
    what: String,
    spoil: Spoil<C>,
}

pub fn spoiler<C>(number: u32, what: impl Into<String>, spoil: impl Fn(&mut C, &mut Rng) + 'static) -> Spoiler<C> {
    Spoiler { place: (0, place(number)), what: what.into(), spoil: Box::new(spoil) }
}

/// A buffer of each length instead of the right one, filled at random.
pub fn lengths<C: 'static>(
    number: u32,
    name: &str,
    lengths: &[usize],
    buffer: fn(&mut C) -> &mut Vec<u8>,
) -> Vec<Spoiler<C>> {
    let of_length = |&length: &usize| {
        let what = format!("{name} of {length} bytes");
        spoiler(number, what, move |case, rng| *buffer(case) = rng.bytes(length))
    };
    lengths.iter().map(of_length).collect()
}

/// The same changes to a part of a larger case.
pub fn on_part<C: 'static, P: 'static>(spoilers: Vec<Spoiler<P>>, part: fn(&mut C) -> &mut P) -> Vec<Spoiler<C>> {
    let widened = |Spoiler { place, what, spoil }: Spoiler<P>| {
        let spoil: Spoil<C> = Box::new(move |case, rng| spoil(part(case), rng));
        Spoiler { place, what, spoil }
    };
    spoilers.into_iter().map(widened).collect()
}

impl<C> Spoiler<C> {
    /// The condition counts after all of so many stages.
    pub fn after(self, stages: u32) -> Spoiler<C> {
        Spoiler { place: (stages, self.place.1), ..self }
    }
}

/// A right case with one or more operands made wrong.
pub struct Spoiled<C> {
    pub case: C,
    pub what: String,
    places: Vec<Place>,
}

impl<C> Spoiled<C> {
    /// The first number in the order whose condition holds.
    pub fn number(&self) -> u32 {
        self.number_without(None).expect("at least one operand is wrong")
    }

    /// The first besides one number that doesn't count; none where no other condition holds.
    pub fn number_without(&self, number: Option<u32>) -> Option<u32> {
        let counted = self.places.iter().filter(|(_, place)| Some(ORDER[*place]) != number);
        counted.min().map(|(_, place)| ORDER[*place])
    }
}

/// Each spoiler alone, each two numbers together, then `together` times two to four spoilers at once: the later
/// condition's change first, so that no change mends an earlier condition.
pub fn spoiled<C>(
    spoilers: &[Spoiler<C>],
    together: usize,
    rng: &mut Rng,
    right: impl Fn(&mut Rng) -> C,
) -> Vec<Spoiled<C>> {
    let mut choices: Vec<Vec<usize>> = (0..spoilers.len()).map(|index| vec![index]).collect();
    choices.extend(pairs(spoilers, rng));
    for _ in 0..together {
        choices.push((0..2 + rng.below(3)).map(|_| rng.below(spoilers.len())).collect());
    }
    let spoil = |mut choice: Vec<usize>| {
        choice.sort_by_key(|&index| (std::cmp::Reverse(spoilers[index].place), index));
        choice.dedup();
        let mut case = right(rng);
        let chosen: Vec<&Spoiler<C>> = choice.into_iter().map(|index| &spoilers[index]).collect();
        for spoiler in &chosen {
            (spoiler.spoil)(&mut case, rng);
        }
        let names: Vec<&str> = chosen.iter().rev().map(|spoiler| spoiler.what.as_str()).collect();
        Spoiled { case, what: names.join("; "), places: chosen.iter().map(|spoiler| spoiler.place).collect() }
    };
    choices.into_iter().map(spoil).collect()
}

/// Three times a spoiler of each number with one of each other number.
fn pairs<C>(spoilers: &[Spoiler<C>], rng: &mut Rng) -> Vec<Vec<usize>> {
    let mut places: Vec<Place> = spoilers.iter().map(|spoiler| spoiler.place).collect();
    places.sort();
    places.dedup();
    let of =
        |place: Place| (0..spoilers.len()).filter(move |&index| spoilers[index].place == place).collect::<Vec<_>>();
    let mut pairs = Vec::new();
    for (number, &earlier) in places.iter().enumerate() {
        for &later in &places[number + 1..] {
            pairs.extend((0..3).map(|_| vec![*rng.pick(&of(earlier)), *rng.pick(&of(later))]));
        }
    }
    pairs
}
