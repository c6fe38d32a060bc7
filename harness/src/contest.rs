//! Two contestants measured in turn in one run, so that the machine's other work disturbs both alike.

use crate::cpu_time::nanoseconds;

/// Work that a subject of kind `S` does.
pub struct Contest<S: ?Sized> {
    pub name: String,
    /// Operations in one run of the work.
    pub operations: usize,
    pub repetitions: usize,
    pub work: Box<dyn Fn(&S)>,
}

/// Medians over the repetitions, in nanoseconds for one operation.
pub struct Times {
    pub plain: f64,
    pub proved: Option<Proved>,
}

pub struct Proved {
    pub time: f64,
    /// Proved to plain: lower quartile, median and upper quartile.
    pub ratio: [f64; 3],
}

impl<S: ?Sized> Contest<S> {
    fn time(&self, subject: &S) -> f64 {
        let start = nanoseconds();
        (self.work)(subject);
        (nanoseconds() - start) as f64 / self.operations as f64
    }

    /// Each of the two goes first in turn, and a ratio is of two neighbours in time.
    pub fn run(&self, proved: Option<&S>, plain: &S) -> Times {
        let (mut proved_times, mut plain_times) = (Vec::new(), Vec::new());
        for repetition in 0..self.repetitions {
            if repetition % 2 == 0 {
                plain_times.push(self.time(plain));
            }
            proved_times.extend(proved.map(|proved| self.time(proved)));
            if repetition % 2 == 1 {
                plain_times.push(self.time(plain));
            }
        }
        let ratios: Vec<f64> = proved_times.iter().zip(&plain_times).map(|(proved, plain)| proved / plain).collect();
        Times {
            plain: quartiles(plain_times)[1],
            proved: proved.map(|_| Proved { time: quartiles(proved_times)[1], ratio: quartiles(ratios) }),
        }
    }
}

/// Lower quartile, median and upper quartile.
fn quartiles(mut values: Vec<f64>) -> [f64; 3] {
    values.sort_by(f64::total_cmp);
    [1, 2, 3].map(|quarter| values[quarter * (values.len() - 1) / 4])
}

#[cfg(test)]
mod tests {
    use super::*;

    #[test]
    fn quartiles_of_nine() {
        let values = [9.0, 2.0, 8.0, 1.0, 5.0, 4.0, 6.0, 3.0, 7.0];
        assert_eq!(quartiles(values.to_vec()), [3.0, 5.0, 7.0]);
        assert_eq!(quartiles(vec![4.0]), [4.0; 3]);
    }
}
