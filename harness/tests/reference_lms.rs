//! The reference's LMS against the RFC's vectors and those of other implementations.

use harness::keys::Key;
use harness::reference::calls::{self, TREE};
use harness::reference::layout::SIGNATURE;
use harness::reference::lmots;
use harness::reference::lms::{self, Types, N, PUBLIC_KEY};
use harness::reference::record::Written;
use harness::vectors::{self, Made, Record};

#[test]
fn parameters_are_those_of_tables_1_and_2() {
    // lms, ots, h, w, p, ls, length of the one-time signature, length of the signature
    let table = [
        (5, 3, 5, 4, 67, 4, 2180, 2348),
        (5, 4, 5, 8, 34, 0, 1124, 1292),
        (6, 3, 10, 4, 67, 4, 2180, 2508),
        (6, 4, 10, 8, 34, 0, 1124, 1452),
    ];
    assert_eq!(Types::all().len(), table.len());
    for (types, (lms, ots, h, w, p, ls, ots_signature, signature)) in Types::all().into_iter().zip(table) {
        assert_eq!((types.lms, types.ots, types.h, types.w), (lms, ots, h, w));
        assert_eq!((types.chains(), types.shift()), (p, ls));
        assert_eq!((types.ots_signature(), types.signature()), (ots_signature, signature));
    }
    for (lms, ots) in [(4, 4), (7, 4), (6, 2), (6, 5), (3, 5), (0, 0)] {
        assert_eq!(Types::of(lms, ots), None);
    }
}

#[test]
fn coef_counts_from_the_left() {
    let s = [0x12, 0x34];
    let nibbles: Vec<u32> = (0..4).map(|i| lmots::coef(&s, i, 4)).collect();
    assert_eq!(nibbles, [1, 2, 3, 4]);
    assert_eq!((lmots::coef(&s, 7, 1), lmots::coef(&s, 6, 1)), (0, 1));
    assert_eq!((lmots::coef(&s, 0, 8), lmots::coef(&s, 1, 8)), (0x12, 0x34));
}

/// Document 01's marked cases for width 8, and the same ends for width 4.
#[test]
fn checksum_of_all_zeros_and_all_ones() {
    let (w4, w8) = (Types::of(5, 3).unwrap(), Types::of(5, 4).unwrap());
    let checksum_digits = |digest: &[u8], types: Types| lmots::digits(digest, types)[types.digest_digits()..].to_vec();
    assert_eq!(lmots::checksum(&[0; 32], w8), 8160);
    assert_eq!(checksum_digits(&[0; 32], w8), [31, 224]);
    assert_eq!(checksum_digits(&[255; 32], w8), [0, 0]);
    assert_eq!(checksum_digits(&[0; 32], w4), [0x3, 0xc, 0x0]);
    assert_eq!(checksum_digits(&[255; 32], w4), [0, 0, 0]);
}

#[test]
fn verdicts_are_the_expected_ones() {
    let files = [
        (vectors::lines("bc-vectors.txt"), 28, 66),
        (vectors::lines("rfc8554-lms-lines.txt"), 4, 0),
        (vectors::rfc_levels(), 4, 0),
    ];
    for (records, accepts, rejects) in files {
        let accepted = records.iter().filter(|record| record.accept).count();
        assert_eq!((accepted, records.len() - accepted), (accepts, rejects));
        for record in records {
            let verdict = lms::verify(&record.key, &record.message, &record.signature);
            assert_eq!(verdict, record.accept, "{}", record.name);
            let number = calls::check_signature(&record.key, &record.message, &record.signature);
            assert_eq!(number, record.number(), "{}: {}", record.name, record.comment);
        }
    }
}

#[test]
fn the_levels_make_up_the_rfc_test_cases() {
    let blocks = vectors::rfc_blocks();
    let levels = vectors::rfc_levels();
    for (case, levels) in [("1", &levels[..2]), ("2", &levels[2..])] {
        let name = format!("hss-testcase-{case}");
        let whole = blocks.iter().find(|block| block.get("record") == Some(&name)).unwrap();
        let [top, bottom] = levels else { panic!("two levels") };
        assert_eq!(whole.bytes("hss_public"), [&[0, 0, 0, 2], top.key.as_slice()].concat());
        assert_eq!(top.message, bottom.key);
        assert_eq!(whole.bytes("message"), bottom.message);
        let signature = [&[0, 0, 0, 1], top.signature.as_slice(), &bottom.key, &bottom.signature].concat();
        assert_eq!(whole.bytes("hss_signature"), signature);
    }
}

/// The accepted records whose seeds are known.
fn remakable() -> Vec<(Record, Made)> {
    let records = vectors::lines("bc-vectors.txt").into_iter().chain(vectors::rfc_levels());
    let with_seed = records.filter_map(|mut record| record.made.take().map(|made| (record, made)));
    with_seed.collect()
}

#[test]
fn keys_and_signatures_are_remade_from_their_seeds() {
    let remakable = remakable();
    assert_eq!(remakable.len(), 28 + 2);
    let mut keys: Vec<Key> = Vec::new();
    for (record, made) in remakable {
        assert!(record.accept);
        // The calls remake those.
        if made.types == Types::ENGINE {
            continue;
        }
        if !keys.iter().any(|key| key.public == record.key) {
            keys.push(Key::make(made.types, &made.identifier, &made.seed));
        }
        let key = keys.iter().find(|key| key.public == record.key).expect("the key of the record");
        assert!(key.sign(made.q, &made.randomizer, &record.message) == record.signature, "{}", record.name);
    }
}

#[test]
fn the_calls_remake_the_records_of_types_6_and_4() {
    let records: Vec<_> = remakable().into_iter().filter(|(_, made)| made.types == Types::ENGINE).collect();
    assert_eq!(records.len(), 11);
    let (record, made) = &records[0];
    let public = &record.key;
    let mut tree = vec![0xa5; TREE];
    let mut out = vec![0x5a; PUBLIC_KEY + 1];
    let answer = calls::make_key(&made.seed, &made.identifier, &mut tree, &mut out);
    assert_eq!(answer, Written { number: 0, written: PUBLIC_KEY as u32 });
    assert_eq!(out, [public.as_slice(), &[0x5a]].concat());
    assert_eq!(tree[..N], [0xa5; N]);
    assert_eq!(tree[N..2 * N], public[PUBLIC_KEY - N..]);
    for (record, made) in &records {
        assert_eq!(record.key, *public, "{}", record.name);
        let mut out = vec![0x5a; SIGNATURE + 1];
        let answer =
            calls::sign(made.q, &made.seed, &made.identifier, &made.randomizer, &tree, &record.message, &mut out);
        assert_eq!(answer, Written { number: 0, written: SIGNATURE as u32 }, "{}", record.name);
        assert!(out == [record.signature.as_slice(), &[0x5a]].concat(), "{}", record.name);
    }
}
