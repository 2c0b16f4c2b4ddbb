//! The saved form of a test: its numbers, its bytes, and what any bytes hold (saved 1 and 3).

use crate::host::{Record, State, ABOVE, AT_MOST, OPEN};
use crate::judge::{live, FIRST, PART};
use crate::wrong::Wrong;

/// Bytes of the header's numbers, in their order.
pub const HEADER: [usize; 9] = [2, 2, 2, 2, 4, 4, 4, 2, 2];
/// The header's numbers.
pub const K: usize = 0;
pub const COUNT: usize = 1;
pub const RECORDS_AT: usize = 2;
pub const MASSES_AT: usize = 3;
pub const LENGTH: usize = 4;
pub const N: usize = 5;
pub const ONES: usize = 6;
pub const RECORD_SIZE: usize = 7;
pub const MASS_SIZE: usize = 8;

/// Bytes of a record's numbers, in their order.
pub const RECORD: [usize; 7] = [4, 4, 4, 4, 8, 8, 4];
pub const RECORD_BYTES: usize = 36;
/// Places of a record's numbers; the two left out are its spent masses.
pub const MARK: usize = 0;
pub const STEP: usize = 1;
pub const LOWER: usize = 2;
pub const UPPER: usize = 3;
pub const ROUNDED: usize = 6;

/// The numbers of one record.
pub type InRecord = [u64; RECORD.len()];

/// Bytes of a record's numbers in the older layout, which had no masses rounded.
const OLDER: [usize; 7] = [4, 4, 4, 4, 8, 8, 0];
const OLDER_BYTES: usize = 32;

/// The whole length of a form.
pub fn length(k: usize, masses: usize) -> usize {
    24 + RECORD_BYTES * k + 8 * masses
}

pub const LONGEST: usize = 61_904;

/// The reasons of refusal 15. Three lengths must be the same: the header's number, that of the bytes, and the one that
/// plan and boundaries ask.
#[derive(Clone, Copy, Debug, PartialEq, Eq)]
pub enum Reason {
    K,
    Count,
    RecordsAt,
    MassesAt,
    RecordSize,
    MassSize,
    HeaderLength,
    BytesLength,
    AskedLength,
    UnknownMark,
    OpenStep,
    Few,
    Many,
}

pub const REASONS: [Reason; 13] = [
    Reason::K,
    Reason::Count,
    Reason::RecordsAt,
    Reason::MassesAt,
    Reason::RecordSize,
    Reason::MassSize,
    Reason::HeaderLength,
    Reason::BytesLength,
    Reason::AskedLength,
    Reason::UnknownMark,
    Reason::OpenStep,
    Reason::Few,
    Reason::Many,
];

/// The places of thresholds as their masses follow each other.
fn places(k: usize, wrong: Wrong) -> Vec<usize> {
    let mut out: Vec<usize> = (0..k).collect();
    if wrong == Wrong::ThresholdsReversed {
        out.reverse();
    }
    out
}

fn turned(mut masses: Vec<u64>, wrong: Wrong) -> Vec<u64> {
    if wrong == Wrong::MassesReversed {
        masses.reverse();
    }
    masses
}

/// A record as the form's numbers and back, with the mistakes that are the same both ways.
fn swapped(mut r: Record, wrong: Wrong) -> Record {
    match wrong {
        Wrong::SpentSwapped => (r.over, r.under) = (r.under, r.over),
        Wrong::RoundedLost => r.rounded = 0,
        Wrong::SettledBare if r.mark != OPEN => r = Record { mark: r.mark, step: r.step, ..Record::default() },
        _ => {}
    }
    r
}

/// The numbers of a form before they are bytes; nothing in them need fit.
#[derive(Clone, Debug)]
pub struct Numbers {
    pub header: [u64; 9],
    pub records: Vec<InRecord>,
    pub masses: Vec<u64>,
}

impl Numbers {
    /// Those of any state and words.
    pub fn of(k: usize, s: &State, words: &[u64], wrong: Wrong) -> Numbers {
        let record = |r: &Record| {
            let r = swapped(*r, wrong);
            let [mark, step, lower, upper] = [r.mark, r.step, r.lower as u32, r.upper].map(u64::from);
            [mark, step, lower, upper, r.over, r.under, r.rounded.into()]
        };
        let masses = |i: usize| match s.records[i].mark == OPEN || wrong == Wrong::SettledStored {
            true => turned(live(&s.records[i], &words[PART * i..PART * (i + 1)]).to_vec(), wrong),
            false => Vec::new(),
        };
        let masses: Vec<Vec<u64>> = places(k, wrong).into_iter().map(masses).collect();
        let mut out = Numbers {
            header: [k as u64, 0, 24, length(k, 0) as u64, 0, s.n.into(), s.ones.into(), RECORD_BYTES as u64, 8],
            records: s.records[..k].iter().map(record).collect(),
            masses: masses.concat(),
        };
        out.fit();
        out
    }

    /// Count and whole length as records and masses stand there.
    pub fn fit(&mut self) {
        self.header[COUNT] = self.masses.len() as u64;
        self.header[LENGTH] = length(self.records.len(), self.masses.len()) as u64;
    }

    pub fn store(&self) -> Vec<u8> {
        self.stored(RECORD)
    }

    /// The same test in the older layout.
    pub fn store_older(&self) -> Vec<u8> {
        let mut older = self.clone();
        let (k, fewer) = (self.records.len() as u64, (RECORD_BYTES - OLDER_BYTES) as u64);
        let places = [(RECORD_SIZE, fewer), (MASSES_AT, fewer * k), (LENGTH, fewer * k)];
        places.into_iter().for_each(|(place, by)| older.header[place] = older.header[place].wrapping_sub(by));
        older.stored(OLDER)
    }

    fn stored(&self, sizes: [usize; 7]) -> Vec<u8> {
        let mut out = Vec::new();
        let mut put = |number: u64, size: usize| out.extend(&number.to_le_bytes()[..size]);
        self.header.into_iter().zip(HEADER).for_each(|(number, size)| put(number, size));
        for record in &self.records {
            record.iter().zip(sizes).for_each(|(number, size)| put(*number, size));
        }
        self.masses.iter().for_each(|mass| put(*mass, 8));
        out
    }
}

/// What bytes hold for so many thresholds, as far as there are bytes, zeros where there are none.
pub struct Held {
    /// Why 15 refuses the bytes.
    pub reasons: Vec<Reason>,
    /// Records past K as at a beginning.
    pub state: State,
    pub words: Vec<u64>,
}

fn number(bytes: &[u8], from: i128, size: usize) -> u64 {
    let there = bytes.get(usize::try_from(from).unwrap_or(usize::MAX)..).unwrap_or(&[]);
    // Most numbers are masses that are there.
    if let (8, Some(mass)) = (size, there.first_chunk()) {
        return u64::from_le_bytes(*mass);
    }
    let size = size.min(there.len());
    let mut whole = [0; 8];
    whole[..size].copy_from_slice(&there[..size]);
    u64::from_le_bytes(whole)
}

/// What a record's numbers say, how many masses they count, and what is wrong with them.
fn record_of(numbers: InRecord, wrong: Wrong) -> (Record, i128, Vec<Reason>) {
    let [code, step, lower, upper, over, under, rounded] = numbers;
    let code = if wrong == Wrong::MarkOfOneByte { code % 256 } else { code };
    let (mark, known) = match code {
        0 => (OPEN, true),
        1 => (ABOVE, true),
        2 => (AT_MOST, true),
        _ if wrong == Wrong::UnknownAtMost => (AT_MOST, true),
        _ => (OPEN, false),
    };
    let lower_boundary = if wrong == Wrong::LowerUnsigned { lower as i128 } else { lower as u32 as i32 as i128 };
    let count = match wrong {
        Wrong::CountOf(bits) => (upper as i128 - lower_boundary - 1).rem_euclid(1 << bits),
        _ => upper as i128 - lower_boundary - 1,
    };
    let open = mark == OPEN;
    let broken = [
        (Reason::UnknownMark, !known),
        (Reason::OpenStep, open && known && step != 0),
        (Reason::Few, open && count < 1),
        (Reason::Many, open && count > PART as i128),
    ];
    let r = Record {
        mark,
        step: if open { 0 } else { step as u32 },
        lower: lower as u32 as i32,
        upper: upper as u32,
        over,
        under,
        rounded: rounded as u32,
    };
    let counted = if open || wrong == Wrong::SettledStored { count.max(0) } else { 0 };
    (swapped(r, wrong), counted, broken.into_iter().filter(|(_, so)| *so).map(|(reason, _)| reason).collect())
}

pub fn held(k: usize, bytes: &[u8], wrong: Wrong) -> Held {
    let mut from = 0;
    let mut next = |size: usize| {
        from += size as i128;
        number(bytes, from - size as i128, size)
    };
    let header = HEADER.map(&mut next);
    let older = wrong == Wrong::OlderRead && header[RECORD_SIZE] == OLDER_BYTES as u64;
    let (sizes, size) = if older { (OLDER, OLDER_BYTES) } else { (RECORD, RECORD_BYTES) };
    let records: Vec<_> = (0..k).map(|_| record_of(sizes.map(&mut next), wrong)).collect();
    let mut state = State { n: header[N] as u32, ones: header[ONES] as u32, records: [FIRST; 10], ..State::default() };
    let (mut words, mut count) = (vec![0; PART * k], 0);
    for i in places(k, wrong) {
        let (r, masses, _) = &records[i];
        state.records[i] = *r;
        let stored = (0..*masses.min(&(PART as i128))).map(|j| number(bytes, from + 8 * (count + j), 8)).collect();
        if r.mark == OPEN {
            words[PART * i..].iter_mut().zip(turned(stored, wrong)).for_each(|(word, mass)| *word = mass);
        }
        count += masses;
    }
    let asked = [k as i128, count, 24, from, from + 8 * count, 0, 0, size as i128, 8];
    let mut reasons: Vec<Reason> = records.into_iter().flat_map(|(.., broken)| broken).collect();
    let numbers = [
        (Reason::K, K),
        (Reason::Count, COUNT),
        (Reason::RecordsAt, RECORDS_AT),
        (Reason::MassesAt, MASSES_AT),
        (Reason::RecordSize, RECORD_SIZE),
        (Reason::MassSize, MASS_SIZE),
    ];
    let differing = numbers.into_iter().filter(|(_, place)| header[*place] as i128 != asked[*place]);
    reasons.extend(differing.map(|(reason, _)| reason));
    let lengths = [
        (Reason::HeaderLength, header[LENGTH] as i128),
        (Reason::BytesLength, bytes.len() as i128),
        (Reason::AskedLength, asked[LENGTH]),
    ];
    // Two of the three are enough to tell: without one, the others must be the same.
    let judged = |reason: &Reason| wrong != Wrong::Unjudged(*reason);
    let left: Vec<i128> = lengths.iter().filter(|(reason, _)| judged(reason)).map(|(_, length)| *length).collect();
    reasons.retain(judged);
    if left.iter().any(|length| *length != left[0]) {
        reasons.extend(lengths.map(|(reason, _)| reason));
    }
    Held { reasons, state, words }
}
