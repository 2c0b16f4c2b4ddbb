//! Ways to damage a saved form: its numbers, with the others made to fit or not, and its bytes.

use crate::damage::{extend, flip_bits, odd_number, put, truncate};
use crate::form::{InRecord, Numbers, COUNT, HEADER, K, LENGTH, LOWER, MARK, N, RECORD, ROUNDED, STEP, UPPER};
use crate::host::{ABOVE, AT_MOST, OPEN};
use crate::judge::{most_rounded, PART};
use crate::rng::Rng;

/// The numbers beside this one, the one with its sign turned, and any.
fn off(rng: &mut Rng, number: u64, size: usize) -> [u64; 4] {
    let top = u64::MAX >> (64 - 8 * size);
    let odd = odd_number(rng, size, &[number]);
    [number.wrapping_add(1) & top, number.wrapping_sub(1) & top, number ^ 1 << (8 * size - 1), odd]
}

fn header(rng: &mut Rng, form: &mut Numbers) {
    let place = rng.below(HEADER.len() as u64) as usize;
    let off = off(rng, form.header[place], HEADER[place]);
    form.header[place] = rng.pick(&off);
}

fn any_record<'a>(rng: &mut Rng, form: &'a mut Numbers) -> &'a mut InRecord {
    let i = rng.below(form.records.len() as u64) as usize;
    &mut form.records[i]
}

fn record(rng: &mut Rng, form: &mut Numbers) {
    let place = rng.below(RECORD.len() as u64) as usize;
    let i = rng.below(form.records.len() as u64) as usize;
    let off = off(rng, form.records[i][place], RECORD[place]);
    form.records[i][place] = rng.pick(&off);
}

/// A code of no mark, whose last byte may be one of a mark; or of another mark.
fn mark(rng: &mut Rng, form: &mut Numbers) {
    let any = rng.next() as u32 as u64;
    let high = 1 << rng.range(8, 31);
    let unknown = rng.pick(&[3, 4, 255, 256, 257, 258, 1 << 31, u32::MAX as u64, any]);
    let other = rng.pick(&[OPEN, ABOVE, AT_MOST]) as u64;
    let r = any_record(rng, form);
    r[MARK] = rng.pick(&[unknown, unknown, r[MARK] | high, other]);
}

fn step(rng: &mut Rng, form: &mut Numbers) {
    let n = form.header[N];
    let r = any_record(rng, form);
    r[STEP] = rng.pick(&[0, 1, n, n + 1, 256, 1 << 31, u32::MAX as u64]) & u32::MAX as u64;
}

fn rounded(rng: &mut Rng, form: &mut Numbers) {
    let most = most_rounded(form.header[N] as u32);
    let r = any_record(rng, form);
    r[ROUNDED] = rng.pick(&[most, most + 1, most + 1, 1 << 31, u32::MAX as u64]) & u32::MAX as u64;
}

/// Masses that the open records count, none for a settled one.
fn counted(form: &Numbers) -> i128 {
    let count = |r: &InRecord| r[UPPER] as i128 - r[LOWER] as u32 as i32 as i128 - 1;
    form.records.iter().filter(|r| r[MARK] == OPEN as u64).map(|r| count(r).max(0)).sum()
}

/// Boundaries that make an open record count so many masses, if there are such.
fn boundaries(rng: &mut Rng, r: &InRecord, count: i128) -> Option<(i32, u32)> {
    let (lower, upper) = (r[LOWER] as u32 as i32, r[UPPER] as u32);
    let lower = rng.pick(&[lower, lower, -1, -2, 0, -770, i32::MIN, i32::MIN + 1, i32::MAX, i32::MAX - 1]) as i128;
    let upper = rng.pick(&[upper, upper, 0, 1, u32::MAX, u32::MAX - 1, 1 << 31]) as i128;
    let either = [(lower, lower + count + 1), (upper - count - 1, upper)];
    let fits = |(lower, upper): (i128, i128)| Some((i32::try_from(lower).ok()?, u32::try_from(upper).ok()?));
    let place = rng.below(2) as usize;
    fits(either[place]).or(fits(either[1 - place]))
}

/// An open record that counts as many masses as may be or about so; or so many that a narrow number cannot tell it.
fn count(rng: &mut Rng, form: &mut Numbers) {
    let most = PART as i128;
    let narrow = rng.pick(&[1 << 16, 1 << 29, 1 << 31, 1 << 32, 1 << 32, 1 << 32]) + rng.pick(&[1, 2, most]);
    let count = rng.pick(&[-1, 0, 0, 1, 2, most - 1, most, most, most + 1, most + 1, narrow, narrow, narrow]);
    let r = any_record(rng, form);
    if let Some((lower, upper)) = boundaries(rng, r, count) {
        (r[MARK], r[STEP], r[LOWER], r[UPPER]) = (OPEN as u64, 0, lower as u32 as u64, upper as u64);
        form.masses.resize((counted(form) % (1 << 16)) as usize, rng.next() >> 21);
        form.fit();
    }
}

/// Masses more or fewer than the boundaries count; count and length are fitted, one of them or both.
fn masses(rng: &mut Rng, form: &mut Numbers) {
    let now = form.masses.len();
    form.masses.resize(rng.pick(&[now.saturating_sub(1), now + 1, now + 1, 0, now + PART]), 0);
    let before = form.header;
    form.fit();
    match rng.below(3) {
        0 => form.header[COUNT] = before[COUNT],
        1 => form.header[LENGTH] = before[LENGTH],
        _ => {}
    }
}

/// A record more or fewer, all numbers fitted to it or the K of before.
fn records(rng: &mut Rng, form: &mut Numbers) {
    let i = rng.below(form.records.len() as u64) as usize;
    match rng.chance(1, 2) {
        true => form.records.insert(i, form.records[i]),
        false => drop(form.records.remove(i)),
    }
    form.fit();
    if rng.chance(1, 2) {
        form.header[K] = form.records.len() as u64;
    }
}

pub fn damage(rng: &mut Rng, form: &mut Numbers) {
    let kinds =
        [header, header, header, record, mark, mark, step, step, rounded, count, count, count, masses, records];
    if !form.records.is_empty() {
        rng.pick(&kinds)(rng, form);
    }
}

/// Longer or shorter by a few bytes, the header's length with it or not; or damaged anyhow.
pub fn damage_bytes(rng: &mut Rng, bytes: &mut Vec<u8>) {
    let (now, by) = (bytes.len(), rng.pick(&[1, 2, 4, 8, 32, 36]));
    match rng.below(8) {
        0..=1 => bytes.resize(now + by, 0),
        2..=3 => bytes.truncate(now.saturating_sub(by)),
        4 if !bytes.is_empty() => truncate(rng, bytes),
        5 => extend(rng, bytes),
        _ if !bytes.is_empty() => flip_bits(rng, bytes),
        _ => {}
    }
    if rng.chance(1, 3) {
        let whole = bytes.len() as u64;
        put(bytes, 8, 4, whole);
    }
}

/// A form with each number of its header off in turn.
pub fn headers_off(rng: &mut Rng, form: &Numbers) -> Vec<Vec<u8>> {
    let mut out = Vec::new();
    for place in 0..HEADER.len() {
        for number in off(rng, form.header[place], HEADER[place]) {
            let mut form = form.clone();
            form.header[place] = number;
            out.push(form.store());
        }
    }
    out
}

/// Bytes with each one changed in turn, cut to every shorter length, and longer.
pub fn in_turn(rng: &mut Rng, bytes: &[u8]) -> Vec<Vec<u8>> {
    let mut out = Vec::new();
    for at in 0..bytes.len() {
        let now = bytes[at];
        for byte in [now ^ 1, now ^ 0x80, now.wrapping_add(1), now.wrapping_sub(1), 0, 0xff, rng.next() as u8] {
            out.push(bytes.to_vec());
            out.last_mut().expect("one")[at] = byte;
        }
        out.push(bytes[..at].to_vec());
    }
    for more in (1..=8).chain([16, 32, 64, 4096]) {
        out.push([bytes, &vec![0; more]].concat());
        out.push([bytes, &rng.bytes(more)].concat());
    }
    out
}
