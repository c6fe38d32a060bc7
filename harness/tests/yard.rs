//! The yard's program: the runs of data/yard, random inputs, and the held output of the gate's programs.

use harness::yard::runs;
use harness::{reference, yard};

#[test]
fn on_the_reference() {
    yard::all(reference::yard::yard);
}

/// The gate compares what each program prints with its file `stdout`.
#[test]
fn the_gates_programs_have_the_first_run_of_a_script() {
    for (program, script) in [("yard_program", "example"), ("yard_confirm", "confirm"), ("yard_conflict", "conflict")] {
        let here = env!("CARGO_MANIFEST_DIR");
        let text = std::fs::read_to_string(format!("{here}/data/yard/{script}.txt")).expect(script);
        let input = std::fs::read(format!("{here}/../crates/{program}/stdin")).expect(program);
        let output = std::fs::read_to_string(format!("{here}/../crates/{program}/stdout")).expect(program);
        assert_eq!(runs(&text).expect(script)[0].output, output, "{program}");
        assert_eq!(reference::yard::yard(&input), output, "{program}");
    }
}

#[test]
fn a_wrong_script_is_told() {
    for (text, told) in [
        ("= 0 0", "line 1: no input was started"),
        ("input\nbytes 10 01\nsays", "line 3: `says` isn't understood"),
        ("input\n= 0 0 0", "line 2: `0` isn't understood"),
        ("input\nbytes 10 without 2", "line 2: so many bytes aren't there"),
    ] {
        assert_eq!(runs(text).err().as_deref(), Some(told));
    }
}

/// The linked program; `rt ci` makes it, and `rt run` in its folder.
#[cfg(feature = "yard")]
mod program {
    use std::process::Command;

    use harness::rng::{seed, Rng};
    use harness::yard::{hearing, opening, printed, random_input};
    use harness::{fleet, parallel, reference, yard};

    const PROGRAM: &str = concat!(env!("CARGO_MANIFEST_DIR"), "/../crates/yard_program/out/yard_program");

    #[test]
    fn on_the_scripts() {
        yard::all(|input| printed(&mut Command::new(PROGRAM), input, usize::MAX));
    }

    #[test]
    fn on_the_scripts_in_small_pieces() {
        yard::all(|input| printed(&mut Command::new(PROGRAM), input, 7));
    }

    #[test]
    fn on_random_inputs() {
        let cases: Vec<u32> = (0..200).collect();
        parallel::map(&cases, |case| {
            let rng = &mut Rng::new(seed(), &format!("yard {case}"));
            let input = random_input(rng);
            let piece = 1 + rng.below(3000);
            let is = printed(&mut Command::new(PROGRAM), &input, piece);
            assert_eq!(is, reference::yard::yard(&input), "random input {case} with ZOLBINE_SEED={}", seed());
        });
    }

    /// 32 MB of messages, with less than half of that to keep them in.
    #[test]
    fn on_a_long_input_in_fixed_memory() {
        let messages = 500;
        let mut input = opening(1, 0, 5, &fleet::table(1));
        for _ in 0..messages {
            input.extend(hearing(&[0; 65535]));
        }
        let limited = &mut Command::new("sh");
        limited.args(["-c", "ulimit -v 16000 && exec \"$0\"", PROGRAM]);
        assert_eq!(printed(limited, &input, usize::MAX), "0 0\n".to_string() + &"9 0\n".repeat(messages));
    }
}
