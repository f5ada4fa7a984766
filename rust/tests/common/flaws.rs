//! Flaws of a job file that are found while it is read.

/// The records of a file, of which the last may be one too many.
pub type Records = Vec<Vec<u8>>;

/// A change of one record.
type Change = Box<dyn Fn(&mut Vec<u8>)>;

/// A flaw: in which record, at which step of its reading, by which number it is refused, and how it is made.
pub struct Flaw {
    pub record: usize,
    pub step: Step,
    pub number: u32,
    make: Change,
    /// Whether the file ends in this record.
    cuts: bool,
}

/// The steps in which a record is read.
#[derive(Clone, Copy, PartialEq, PartialOrd)]
pub enum Step {
    MarkThere,
    MarkAllowed,
    NumberThere,
    NumberFits,
    RestThere,
    FileEnded,
}

impl Flaw {
    pub fn make(&self, records: &mut Records) {
        records.resize(records.len().max(self.record + 1), Vec::new());
        (self.make)(&mut records[self.record]);
        if self.cuts {
            records.truncate(self.record + 1);
        }
    }

    /// Is it found before the other?
    pub fn is_before(&self, other: &Self) -> bool {
        (self.record, self.step) < (other.record, other.step)
    }
}

/// The marks of the records in their order, of a file without C and of one with C.
const WITHOUT_C: [&[u8; 2]; 7] = [b"LA", b"WA", b"LB", b"WB", b"LD", b"WD", b"GO"];
const WITH_C: [&[u8; 2]; 9] = [b"LA", b"WA", b"LB", b"WB", b"LC", b"WC", b"LD", b"WD", b"GO"];

/// Every flaw of a file with C or without.
pub fn flaws(with_c: bool) -> Vec<Flaw> {
    let marks: &[&[u8; 2]] = if with_c { &WITH_C } else { &WITHOUT_C };
    (0..marks.len()).flat_map(|record| of_record(marks, record)).chain(after_the_records(marks.len())).collect()
}

fn of_record(marks: &[&'static [u8; 2]], record: usize) -> Vec<Flaw> {
    let cut = |step, length: usize| {
        let make = Box::new(move |bytes: &mut Vec<u8>| bytes.truncate(length));
        Flaw { record, step, number: 21, make, cuts: true }
    };
    let shorter = |less: usize| {
        let make = Box::new(move |bytes: &mut Vec<u8>| bytes.truncate(bytes.len() - less));
        Flaw { record, step: Step::RestThere, number: 21, make, cuts: true }
    };
    let mut flaws = vec![cut(Step::MarkThere, 0), cut(Step::MarkThere, 1), shorter(1), shorter(4)];
    flaws.extend(wrong_marks(record, marks[(record + 1) % marks.len()]));
    match marks[record] {
        b"GO" => flaws.push(cut(Step::RestThere, 2)),
        [b'L', _] => {
            flaws.push(cut(Step::NumberThere, 2));
            flaws.extend(large_numbers(record, 1, &[9, 128, 255]));
        }
        _ => {
            flaws.extend([2, 3, 5].map(|length| cut(Step::NumberThere, length)));
            flaws.extend(large_numbers(record, 23, &[4_097, 65_536, 1 << 30, u32::MAX]));
        }
    }
    flaws
}

/// In lower case, turned round, of the next record, and with one letter of another mark. No record has an `E`.
fn wrong_marks(record: usize, next: &'static [u8; 2]) -> Vec<Flaw> {
    let mark = |make: fn(&mut Vec<u8>)| {
        let make = Box::new(make);
        Flaw { record, step: Step::MarkAllowed, number: 20, make, cuts: false }
    };
    let next = move |bytes: &mut Vec<u8>| bytes[..2].copy_from_slice(next);
    vec![
        mark(|bytes| bytes[..2].make_ascii_lowercase()),
        mark(|bytes| bytes[..2].reverse()),
        mark(|bytes| bytes[0] ^= 0x80),
        mark(|bytes| bytes[1] = b'E'),
        mark(|bytes| bytes[0] = b'X'),
        Flaw { record, step: Step::MarkAllowed, number: 20, make: Box::new(next), cuts: false },
    ]
}

/// A rank above 8 or a count above 4,096, with the rest of the record as it was, and with none.
fn large_numbers(record: usize, number: u32, values: &[u32]) -> Vec<Flaw> {
    let large = |value: u32, cuts: bool| {
        let make = Box::new(move |bytes: &mut Vec<u8>| {
            let end = if number == 1 { 3 } else { 6 };
            bytes[2..end].copy_from_slice(&value.to_le_bytes()[..end - 2]);
            bytes.truncate(if cuts { end } else { bytes.len() });
        });
        Flaw { record, step: Step::NumberFits, number, make, cuts }
    };
    values.iter().flat_map(|value| [large(*value, false), large(*value, true)]).collect()
}

fn after_the_records(record: usize) -> Vec<Flaw> {
    let after = |more: &'static [u8]| {
        let make = Box::new(move |bytes: &mut Vec<u8>| bytes.extend_from_slice(more));
        Flaw { record, step: Step::FileEnded, number: 22, make, cuts: false }
    };
    vec![after(b"\0"), after(b"\n"), after(b"GO"), after(&[0; 100])]
}
