//! Faults in payloads and in subsections, behind sections that are read and behind sizes of any length: where each is told.
use super::modules::{hear, FULL, HEADER};
use crate::case::{Call, Case};
use crate::limits::module_alone;
use crate::Court;

/// The design's worked cases, each with its answer.
const WORKED: [(&str, &str, &str); 13] = [
    ("R03-1", "H 02 00", "refused 1 at 10"),
    ("R03-3", "H 02 06 01 01 6d 01 66 04", "refused 5 at 4, offset 15"),
    ("R03-5", "H 01 02 00", "refused 1 at 10"),
    ("R03-7", "00 61 73 6d 00 00 00 00", "refused 2 at 4"),
    ("R03-9", "H 00 06 N 00", "refused 1 at 16"),
    ("R03-11", "H 00 09 N 00 02 01 ff", "refused 4 at 18"),
    ("R03-13", "H 00 07 N 01 05", "refused 1 at 17"),
    ("R03-15", "H 07 05 01 01 65 00 80", "refused 1 at 15"),
    ("R03-17", "H 07 0b 80 80 80 80 80 80 80 80 80 80 00", "refused 17 at 10"),
    ("R03-21", "H 02 80 00", "refused 1 at 11"),
    ("R03-25", "H 02 05 01 00 00 03 7f", "refused 1 at 15"),
    ("R03-27", "H 02 04 01 00 00 10", "refused 5 at 16, offset 13"),
    ("R03-29", "H 00 80 80 80 80 80", "refused 1 at 14"),
];

/// Contents of section 2, 7 or 0 with a fault of each kind.
const FAULTY: [(u8, &[u8]); 22] = [
    (2, b""),
    (2, b"\x01"),
    (2, b"\x01\x01m\x01f\x04"),
    (2, b"\x01\0\0\x10"),
    (2, b"\x02\0\0\0\0\0\0\x09\0"),
    (2, b"\x03\0\0\x01\x70\x01\x01\x02\0\0\x03\x7f\0\x01m\0\xff"),
    (2, b"\x01\x01\xff\0\0\0"),
    (2, b"\x01\x01m\x01\xff\0\0"),
    (2, b"\x01\0\0\x03\x7f"),
    (2, b"\x01\0\0\x02\x01\0"),
    (2, b"\x01\0\0\0\x80\x80\x80\x80\x80\x80\x80\x80\x80\x80\0"),
    (2, b"\x01\0\0\0\xff\xff\xff\xff\xff\xff\xff\xff\xff\x02"),
    (2, b"\x01\0\0\0\x80\x80\x80\x80\x10"),
    (7, b""),
    (7, b"\x01\x01e\0\x80"),
    (7, b"\x01\x01\xff\0\0"),
    (7, b"\x02\x01e\0\0\x01f\0\x80\x80\x80\x80\x10"),
    (0, b"\x01\xff"),
    (0, b"\x05ab"),
    (0, b"\x04name\0"),
    (0, b"\x04name\x01\x05"),
    (0, b"\x04name\0\x02\x01a\x01\x80"),
];

/// And of subsections 0 and 1 of a name section.
const TOLD: [(u8, &[u8]); 7] = [
    (0, b""),
    (0, b"\x01\xff"),
    (0, b"\x80\x80\x80\x80\x10"),
    (1, b""),
    (1, b"\x01\x07\x01\xff"),
    (1, b"\x02\x07\x01f\x08"),
    (1, b"\x01\x80\x80\x80\x80\x80\x80\x80\x80\x80\x80\0"),
];

/// What may stand before a section that is faulty, and before a subsection.
const BEFORE: [&[u8]; 4] = [b"", b"\x01\x02\xff\xff", b"\x02\x86\0\x01\x01m\0\0\0", b"\0\x0a\x04name\0\x03\x02ab"];
const BEFORE_SUB: [&[u8]; 3] = [b"", b"\0\x03\x02ab", b"\x02\x81\x80\0\xff"];

/// A number in so many bytes.
fn padded(n: usize, bytes: usize) -> Vec<u8> {
    let more = |i: usize| if i + 1 < bytes { 0x80 } else { 0 };
    (0..bytes).map(|i| (n >> (7 * i)) as u8 & 0x7f | more(i)).collect()
}

fn framed(id: u8, size_bytes: usize, contents: &[u8]) -> Vec<u8> {
    [&[id], &padded(contents.len(), size_bytes)[..], contents].concat()
}

fn heard(court: &mut Court, sections: &[&[u8]]) {
    let file = [&[HEADER], sections].concat().concat();
    hear(court, &file, FULL);
    court.hear(Case::new(Call::CModule, &[2_000], &[&file]));
    court.hear(Case::new(Call::Check, &[], &[&file, b"default allow"]));
    for (baseline, candidate) in [(&file[..], HEADER), (HEADER, &file)] {
        court.hear(Case::new(Call::CCompare, &[2_000], &[baseline, candidate]));
        court.hear(Case::new(Call::Compare, &[4096, 6144, 2_000], &[baseline, candidate]));
    }
}

pub fn fixed(court: &mut Court) {
    for (id, bytes, answer) in WORKED {
        let file = super::bytes(bytes);
        let said = module_alone(&file);
        if said != answer {
            court.differ(&format!("the judge says {said} of {id}, which is stated as {answer}"));
        }
        heard(court, &[&file[8..]]);
        hear(court, &file, FULL);
    }
    for before in BEFORE {
        for size_bytes in [1, 2, 5, 10] {
            for (id, contents) in FAULTY {
                heard(court, &[before, &framed(id, size_bytes, contents)]);
            }
            for (id, contents) in TOLD {
                for before_sub in BEFORE_SUB {
                    for sub_bytes in [1, 3] {
                        let payload = [b"\x04name", before_sub, &framed(id, sub_bytes, contents)].concat();
                        heard(court, &[before, &framed(0, size_bytes, &payload), b"\x01\0"]);
                    }
                }
            }
        }
    }
}
