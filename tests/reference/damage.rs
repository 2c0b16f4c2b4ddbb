//! Ways to damage a plan, its stored form and an input.

use crate::any_plan::{any_horizon, plan_of_size};
use crate::draft::Draft;
use crate::plan::{LARGEST_ALLOWANCE, LEAST_APART};
use crate::rng::Rng;

pub fn put(bytes: &mut [u8], from: usize, size: usize, value: u64) {
    for i in 0..size {
        if let Some(byte) = bytes.get_mut(from + i) {
            *byte = (value >> (8 * i)) as u8;
        }
    }
}

pub fn odd_number(rng: &mut Rng, size: usize, near: &[u64]) -> u64 {
    let top = if size == 8 { u64::MAX } else { (1 << (8 * size)) - 1 };
    match rng.below(4) {
        0 => rng.pick(&[0, 1, 2, top, top - 1, top / 2, top / 2 + 1]),
        1 => rng.next() & top,
        _ => {
            let at = rng.pick(near);
            rng.pick(&[at, at.wrapping_sub(1), at.wrapping_add(1), at.wrapping_add(1 << (8 * size - 8)), at << 8]) & top
        }
    }
}

pub fn header(rng: &mut Rng, bytes: &mut Vec<u8>) {
    let k = bytes[0] as u64;
    let (from, size, near): (usize, usize, Vec<u64>) = match rng.below(6) {
        0 => (0, 2, vec![0, 1, 10, 11, k]),
        1 => (2, 2, vec![1, 2, 16, 17]),
        2 => (4, 2, vec![16, 0, 20]),
        3 => (6, 2, vec![16 + 12 * k, 28, 16]),
        4 => (8, 4, vec![1, 65_535, 1000, 0]),
        _ => (12, 4, vec![1, 50_000, 200, 0]),
    };
    let value = odd_number(rng, size, &near);
    put(bytes, from, size, value);
}

pub fn threshold(rng: &mut Rng, draft: &mut Draft) {
    let i = rng.below(draft.thresholds.len() as u64) as usize;
    let before = if i > 0 { draft.thresholds[i - 1].0 as u64 } else { 1 };
    let after = draft.thresholds.get(i + 1).map_or(999_999, |t| t.0 as u64);
    draft.thresholds[i].0 = odd_number(rng, 4, &[1, 999_999, 1_000_000, before, after]) as u32;
}

/// One of two neighbours moved to about the least difference from the other; most times the buckets' ends go with it.
pub fn close(rng: &mut Rng, draft: &mut Draft) {
    let Some(last) = draft.thresholds.len().checked_sub(2) else { return };
    let any = rng.below(last as u64 + 1) as usize;
    let pair = rng.pick(&[last, any, any, any, any, any]);
    let apart = rng.pick(&[0, 1, 98, 99, 99, 99, 99, 100, 100, 101]);
    let (below, above) = (draft.thresholds[pair].0, draft.thresholds[pair + 1].0);
    let (place, to) = match rng.chance(1, 2) {
        true => (pair, above.wrapping_sub(apart)),
        false => (pair + 1, below.wrapping_add(apart)),
    };
    let from = std::mem::replace(&mut draft.thresholds[place].0, to);
    if rng.chance(7, 8) {
        let ends = draft.buckets.iter_mut().flat_map(|(left, right)| [left, right]);
        ends.filter(|end| **end == from).for_each(|end| *end = to);
    }
}

/// Close thresholds, alone or with other damage.
pub fn close_draft(rng: &mut Rng) -> Draft {
    let any = rng.range(1, 10) as usize;
    let k = rng.pick(&[2, 10, 10, any]);
    let horizon = any_horizon(rng);
    let mut draft = plan_of_size(rng, k, 1, horizon);
    for _ in 0..rng.pick(&[1, 1, 2]) {
        close(rng, &mut draft);
    }
    for _ in 0..rng.pick(&[0, 0, 1, 1, 2]) {
        // Twice what seldom breaks its rule.
        let more = rng.pick(&[threshold, order, allowance, delay_or_horizon, bucket, cover, cover]);
        more(rng, &mut draft);
    }
    draft
}

pub fn allowance(rng: &mut Rng, draft: &mut Draft) {
    let i = rng.below(draft.thresholds.len() as u64) as usize;
    let now = draft.thresholds[i].1;
    draft.thresholds[i].1 = match rng.below(3) {
        0 => now | 1 << rng.range(32, 63),
        _ => odd_number(rng, 8, &[1, LARGEST_ALLOWANCE, LARGEST_ALLOWANCE + 1, now]),
    };
}

pub fn delay_or_horizon(rng: &mut Rng, draft: &mut Draft) {
    let number = if rng.chance(1, 2) { &mut draft.delay } else { &mut draft.horizon };
    *number = odd_number(rng, 4, &[1, 65_535, 65_536, 50_000, 50_001]) as u32;
}

pub fn bucket(rng: &mut Rng, draft: &mut Draft) {
    let ends = draft.ends();
    let i = rng.below(draft.buckets.len() as u64) as usize;
    let bucket = &mut draft.buckets[i];
    match rng.below(6) {
        0 => *bucket = (bucket.1, bucket.0),
        1 => *bucket = (0, 1_000_000),
        2 => *bucket = (bucket.0, bucket.0),
        3 => *bucket = (rng.pick(&ends), rng.pick(&ends)),
        which => {
            let odd = odd_number(rng, 4, &[0, 1_000_000, bucket.0 as u64, bucket.1 as u64]) as u32;
            let end = if which == 4 { &mut bucket.0 } else { &mut bucket.1 };
            *end = odd;
        }
    }
}

/// All buckets replaced or narrowed, so that some p may lie in none.
pub fn cover(rng: &mut Rng, draft: &mut Draft) {
    let ends = draft.ends();
    let place = |rng: &mut Rng| {
        let left = rng.below(ends.len() as u64 - 1) as usize;
        let right = rng.range(left as u64 + 1, ends.len() as u64 - 1) as usize;
        (ends[left], ends[right])
    };
    if rng.chance(1, 2) {
        for bucket in draft.buckets.iter_mut() {
            *bucket = place(rng);
        }
    } else {
        let i = rng.below(draft.buckets.len() as u64) as usize;
        let other = rng.pick(&draft.buckets);
        draft.buckets[i] = other;
    }
}

pub fn counts(rng: &mut Rng, draft: &mut Draft) {
    match rng.below(4) {
        0 => draft.thresholds.clear(),
        1 => {
            let mut at = draft.thresholds.last().map_or(1, |t| t.0);
            let step = rng.pick(&[1, LEAST_APART]);
            while draft.thresholds.len() < 11 {
                at += step;
                draft.thresholds.push((at, 7));
            }
        }
        2 => draft.buckets.truncate(rng.below(2) as usize),
        _ => {
            while draft.buckets.len() < 17 {
                let again = rng.pick(&draft.buckets);
                draft.buckets.push(again);
            }
        }
    }
}

pub fn order(rng: &mut Rng, draft: &mut Draft) {
    let count = draft.thresholds.len() as u64;
    let (i, j) = (rng.below(count) as usize, rng.below(count) as usize);
    match rng.below(3) {
        0 => draft.thresholds.swap(i, j),
        1 => draft.thresholds[i].0 = draft.thresholds[j].0,
        _ => draft.thresholds.reverse(),
    }
}

fn foreign(rng: &mut Rng) -> u8 {
    loop {
        let any = rng.next() as u8;
        let byte = rng.pick(&[b'2', b' ', b'\t', b'\r', 0, 0x0b, 0xff, b'/', b'O', 0x80, any]);
        if ![b'0', b'1', b'\n'].contains(&byte) {
            return byte;
        }
    }
}

pub fn input(rng: &mut Rng, input: &mut Vec<u8>) {
    for _ in 0..rng.range(1, 3) {
        let at = rng.below(input.len() as u64 + 1) as usize;
        match rng.below(6) {
            0 => input.insert(at, 0),
            1 => input.insert(at, b'\r'),
            2 => {
                input.insert(at, b'\n');
                input.insert(at, b'\r');
            }
            3 if at < input.len() => input[at] ^= 1 << rng.below(8),
            _ => input.insert(at, foreign(rng)),
        }
    }
}

pub fn truncate(rng: &mut Rng, bytes: &mut Vec<u8>) {
    bytes.truncate(rng.below(bytes.len() as u64) as usize);
}

pub fn extend(rng: &mut Rng, bytes: &mut Vec<u8>) {
    let more = rng.pick(&[1, 1, 2, 4, 8, 12, 16, 220, 248, 249, 264, 300, 4096, 70_000]);
    let zeros = rng.chance(1, 2);
    bytes.extend((0..more).map(|_| if zeros { 0 } else { rng.next() as u8 }));
}

pub fn flip_bits(rng: &mut Rng, bytes: &mut Vec<u8>) {
    for _ in 0..rng.range(1, 3) {
        let at = rng.below(bytes.len() as u64) as usize;
        bytes[at] ^= 1 << rng.below(8);
    }
}
