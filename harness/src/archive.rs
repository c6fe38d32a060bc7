//! The sections of a static library: an `ar` archive of objects in ELF for x86-64.

pub struct Section {
    pub name: String,
    /// A program that has the library can write to it.
    pub writable: bool,
    pub length: usize,
    /// None where the section takes room alone, as .bss does.
    pub bytes: Vec<u8>,
}

/// Every section of every member.
pub fn sections(archive: &[u8]) -> Vec<Section> {
    objects(archive).into_iter().flat_map(sections_of).collect()
}

/// The members, but for the index of symbols and the list of long names.
fn objects(archive: &[u8]) -> Vec<&[u8]> {
    let mut rest = archive.strip_prefix(b"!<arch>\n").expect("an archive");
    let mut objects = Vec::new();
    while let Some((header, after)) = rest.split_at_checked(60) {
        let field = |from, to| std::str::from_utf8(&header[from..to]).expect("a header").trim_end();
        let length = field(48, 58).parse().expect("a length");
        if !["/", "//"].contains(&field(0, 16)) {
            objects.push(&after[..length]);
        }
        // Members begin at even places.
        rest = after.get(length.next_multiple_of(2)..).unwrap_or_default();
    }
    assert!(rest.is_empty(), "bytes after the last member");
    objects
}

fn sections_of(object: &[u8]) -> Vec<Section> {
    assert_eq!(object[..6], *b"\x7fELF\x02\x01", "an object of 64 bits, little-endian");
    assert_eq!(number(object, 18, 2), 62, "an object for x86-64, whose immediates are bytes in a row");
    let [length, count, of_names] = [58, 60, 62].map(|at| number(object, at, 2));
    let headers: Vec<&[u8]> = object[number(object, 40, 8)..].chunks(length).take(count).collect();
    let part = |header: &[u8]| &object[number(header, 24, 8)..][..number(header, 32, 8)];
    let names = part(headers[of_names]);
    let section = |header: &&[u8]| {
        let name = names[number(header, 0, 4)..].split(|&byte| byte == 0).next().expect("a name");
        let (kind, flags, length) = (number(header, 4, 4), number(header, 8, 8), number(header, 32, 8));
        assert_eq!(flags & COMPRESSED, 0, "bytes that can't be searched");
        Section {
            name: String::from_utf8_lossy(name).into_owned(),
            writable: flags & (LOADED | WRITTEN) == LOADED | WRITTEN && !name.starts_with(FIXED),
            length,
            bytes: if kind == ROOM_ALONE { Vec::new() } else { part(header).to_vec() },
        }
    };
    headers.iter().map(section).collect()
}

/// ELF's names for these are SHF_WRITE, SHF_ALLOC, SHF_COMPRESSED and SHT_NOBITS.
const WRITTEN: usize = 1;
const LOADED: usize = 2;
const COMPRESSED: usize = 0x800;
const ROOM_ALONE: usize = 8;

/// Addresses that are filled in before the program begins. From then on it can't write there.
const FIXED: &[u8] = b".data.rel.ro";

/// The little-endian number of a field.
fn number(bytes: &[u8], at: usize, length: usize) -> usize {
    bytes[at..at + length].iter().rev().fold(0, |number, &byte| number << 8 | usize::from(byte))
}
