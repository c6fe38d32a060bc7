//! SHA-256's round constants stand nowhere in the archive, and in crates/ in one law alone. Neither does a list of their primes stand
//! in the archive, and nothing in it outlasts a call.
#![cfg(feature = "zolbine")]

use std::fmt::LowerHex;
use std::fs;
use std::path::{Path, PathBuf};
use std::process::Command;

use harness::archive::sections;
use harness::c_program::{compiler, file};
use harness::reference::sha256::{INITIAL, K};
use harness::rng::Rng;
use harness::tables::Form::{Halves, Kept, Masked, Primes, Quarters, Step, Word};
use harness::tables::{finds, primes, spelled, Form};

#[test]
fn the_archive_has_no_table_and_keeps_nothing() {
    let archive = fs::read(env!("ZOLBINE_ARCHIVE")).unwrap();
    let sections = sections(&archive);
    let read: usize = sections.iter().map(|section| section.bytes.len()).sum();
    assert!(10 * read > 8 * archive.len(), "{read} bytes read of {}", archive.len());
    let finds = finds(&sections);
    assert!(finds.is_empty(), "{finds:#?}\nOne constant alone may be chance: look at the bytes around it.");
}

/// A C file with a table, the forms in which it must be found, and the section. In harmless files, which have none, nothing may be.
struct Case {
    name: &'static str,
    source: String,
    forms: &'static [Form],
    section: &'static str,
}

/// A table of numbers of 8, 16, 32 or 64 bits.
fn data<T: LowerHex>(name: &'static str, forms: &'static [Form], bits: u32, numbers: &[T]) -> Case {
    let numbers: String = numbers.iter().map(|number| format!("{number:#x}, ")).collect();
    Case { name, source: format!("const uint{bits}_t table[] = {{ {numbers} }};"), forms, section: ".rodata" }
}

/// A function that writes the numbers one by one: each is an immediate.
fn code(name: &'static str, forms: &'static [Form], bits: u32, numbers: &[u32]) -> Case {
    let writes: String = (0..).zip(numbers).map(|(i, number)| format!("out[{i}] = {number:#x}; ")).collect();
    Case { name, source: format!("void fill(volatile uint{bits}_t *out) {{ {writes} }}"), forms, section: ".text" }
}

fn cases() -> Vec<Case> {
    const MASK: u32 = 0x5bd1_e995;
    let spread =
        |lanes: usize, numbers: &[u32]| numbers.iter().flat_map(|&number| vec![number; lanes]).collect::<Vec<_>>();
    let falling = |numbers: [u32; 64]| std::array::from_fn::<u32, 64, _>(|i| numbers[63 - i]);
    let mixed = |numbers: [u32; 64]| std::array::from_fn::<u32, 64, _>(|i| numbers[i * 5 % 64]);
    let [xor, plus, taken] =
        [K.map(|word| word ^ MASK), K.map(|word| word.wrapping_add(MASK)), K.map(|word| MASK.wrapping_sub(word))];
    let [high, low] = [K.map(|word| word >> 16), K.map(|word| word & 0xffff)];
    let low_plus = low.map(|half| (half + MASK) & 0xffff);
    let quarters = [24, 16, 8, 0].map(|shift| K.map(|word| word >> shift & 0xff));
    let steps = |step: fn(u32, u32) -> u32| K.windows(2).map(|pair| step(pair[1], pair[0])).collect::<Vec<_>>();
    let primes = primes();
    let prime_steps: Vec<u32> = primes.windows(2).map(|pair| pair[1] - pair[0]).collect();
    let roots: Vec<u64> = primes.iter().map(|&prime| f64::from(prime).cbrt().to_bits()).collect();
    let mut rng = Rng::new(1, "other numbers");
    let others: Vec<u32> = (0..5_000).map(|_| rng.u32()).collect();
    const ALL: &[Form] = &[Word, Masked, Halves];
    const CHANGED: &[Form] = &[Masked, Halves];
    vec![
        data("words", ALL, 32, &K),
        data("words, falling", ALL, 32, &falling(K)),
        data("words, mixed", ALL, 32, &mixed(K)),
        data("words over 4 lanes", ALL, 32, &spread(4, &K)),
        data("words over 8 lanes", ALL, 32, &spread(8, &K)),
        data("words over 16 lanes", ALL, 32, &spread(16, &K)),
        data("bytes, big-endian", ALL, 8, K.map(u32::to_be_bytes).as_flattened()),
        data("one word", &[Word], 32, &[&others[..9], &K[17..18]].concat()),
        code("immediates", ALL, 32, &K),
        code("one immediate", &[Word], 32, &[&others[..9], &K[..1]].concat()),
        data("roots, off a byte", &[Word], 64, &roots),
        data("differences", &[Step], 32, &steps(u32::wrapping_sub)),
        data("differences, xor", &[Step], 32, &steps(|next, one| next ^ one)),
        data("xor", CHANGED, 32, &xor),
        data("xor, mixed", CHANGED, 32, &mixed(xor)),
        data("xor, big-endian", CHANGED, 8, xor.map(u32::to_be_bytes).as_flattened()),
        data("plus", CHANGED, 32, &plus),
        data("plus, mixed", CHANGED, 32, &mixed(plus)),
        code("plus, immediates", CHANGED, 32, &plus),
        data("taken from a number", CHANGED, 32, &taken),
        data("taken from a number, mixed", CHANGED, 32, &mixed(taken)),
        data("high halves", &[Halves], 16, &high),
        data("low halves", &[Halves], 16, &low),
        code("high halves, immediates", &[Halves], 16, &high),
        code("low halves, immediates", &[Halves], 16, &low),
        data("high halves, falling", &[Halves], 16, &falling(high)),
        data("high halves, mixed", &[Halves], 16, &mixed(high)),
        data("high halves, big-endian", &[Halves], 8, high.map(|half| (half as u16).to_be_bytes()).as_flattened()),
        data("high halves, xor", &[Halves], 16, &high.map(|half| half ^ 0xa5c3)),
        data("low halves, plus, over 16 lanes", &[Halves], 32, &spread(16, &low_plus)),
        data("quarters", &[Quarters], 8, quarters.as_flattened()),
        data("primes", &[Primes], 16, &primes),
        data("primes, one byte of each", &[Primes], 8, &primes.iter().map(|prime| prime & 0xff).collect::<Vec<_>>()),
        code("primes, immediates", &[Primes], 32, &primes),
        data("steps from prime to prime", &[Primes], 8, &prime_steps),
        Case {
            name: "room to keep them",
            source: "static uint32_t k[64]; uint32_t *kept(void) { return k; }".into(),
            forms: &[Kept],
            section: ".bss",
        },
        Case {
            name: "a number that is kept",
            source: "static uint32_t calls = 1; uint32_t kept(void) { return ++calls; }".into(),
            forms: &[Kept],
            section: ".data",
        },
        Case {
            name: "an address",
            source: "static const int one = 1; const int *const fixed[] = {&one};".into(),
            forms: &[],
            section: "",
        },
        data("the initial hash value", &[], 32, &INITIAL),
        data("odd numbers", &[], 16, &(1..312).step_by(2).collect::<Vec<u32>>()),
        data("other numbers", &[], 32, &others),
        code("other immediates", &[], 32, &others[..64]),
    ]
}

fn run(command: &mut Command) {
    assert!(command.status().expect("the tool is installed").success(), "{command:?}");
}

/// An object of a name that is too long for an archive's header.
fn compiled(folder: &Path, name: &str, source: &str) -> PathBuf {
    let [text, object] = ["c", "o"].map(|ending| folder.join(format!("a_member_of_the_archive_{name}.{ending}")));
    fs::write(&text, format!("#include <stdint.h>\n{source}\n")).unwrap();
    run(compiler(false).args(["-O2", "-c"]).arg(&text).arg("-o").arg(&object));
    object
}

#[test]
fn each_form_of_a_table_is_found() {
    let folder = Path::new(env!("CARGO_TARGET_TMPDIR")).join("no_table");
    let _ = fs::remove_dir_all(&folder);
    fs::create_dir(&folder).unwrap();
    let before = compiled(&folder, "before", "int before(void) { return 1; }");
    for (number, Case { name, source, forms, section }) in cases().into_iter().enumerate() {
        let archive = folder.join(format!("{number}.a"));
        let object = compiled(&folder, &number.to_string(), &source);
        run(Command::new("ar").arg("crs").arg(&archive).arg(&before).arg(&object));
        let finds = finds(&sections(&fs::read(&archive).unwrap()));
        let is_found = |form: &Form| finds.iter().any(|find| find.form == *form);
        assert!(forms.iter().all(is_found) && finds.is_empty() == forms.is_empty(), "{name}: {finds:#?}");
        assert!(finds.iter().all(|find| find.section.starts_with(section)), "{name}: {finds:#?}");
    }
}

fn files_below(folder: &Path) -> Vec<PathBuf> {
    let entries = fs::read_dir(folder).unwrap().map(|entry| entry.unwrap().path());
    // What rt keeps is no source.
    let entries = entries.filter(|path| path.file_name() != Some("out".as_ref()));
    entries.flat_map(|path| if path.is_dir() { files_below(&path) } else { vec![path] }).collect()
}

/// Of all files of the crates, the one with the law that compares the rule with the standard's list has the numbers.
#[test]
fn source_spells_them_in_one_law_alone() {
    let mut spelling = files_below(&file("crates"));
    spelling.retain(|path| !spelled(&String::from_utf8_lossy(&fs::read(path).unwrap())).is_empty());
    let law = file("crates/fips180/proofs/ConstantsLaws.antt");
    assert_eq!(spelling, [law.as_path()]);
    assert_eq!(spelled(&fs::read_to_string(law).unwrap()), K);
}

#[test]
fn spellings() {
    for text in
        ["[0x428a2f98, 1]", "0x428A_2F98", "0X428A2F98", "1116352408u32", "1_116_352_408", "(0x428a2f9871374491)"]
    {
        assert_eq!(spelled(text)[0], K[0], "{text}");
    }
    assert_eq!(spelled("0xfc19dc6 and 0x0fc1_9dc6"), [K[18]]);
    assert_eq!(spelled("0x428a2f99 0x6a09e667 311 4294967296"), []);
}
