//! Printed saved forms and calls, and small forms.

use crate::draft::{plan_f, plan_g, Draft};
use crate::examples::with_thresholds;
use crate::host::{plan_of, State};
use crate::judge::{begin, draw, Fault, PART};
use crate::saved_cases::numbers_of;
use crate::scenes::Scene;

/// Plan F's bytes.
pub const PLAN_F: &str =
    "0100020010001c00e8030000c800000050c300002fdd2406010000000000000050c3000050c3000040420f00";

/// A plan, draws to it, the number that the last call returns, and the form after them.
pub type Printed = (fn() -> Draft, &'static [u32], u32, &'static str);

/// Forms of the plans F and G (saved 8).
pub const FORMS: [Printed; 8] = [
    (
        plan_f,
        &[],
        100,
        "0100010018003c00440000000000000000000000240008000000000000000000ffffffff01000000000000000000000000000000\
         00000000000000000000000000040000",
    ),
    (
        plan_f,
        &[1],
        100,
        "0100020018003c004c0000000100000001000000240008000000000000000000ffffffff02000000000000000000000000000000\
         0000000002000000cdcccccccc0300003433333333000000",
    ),
    (
        plan_f,
        &[0],
        100,
        "0100020018003c004c0000000100000000000000240008000000000000000000ffffffff02000000000000000000000000000000\
         0000000002000000cdcccccccc0300003433333333000000",
    ),
    (
        plan_f,
        &[1, 1, 1, 1, 1],
        102,
        "0100000018003c003c0000000500000005000000240008000100000005000000ffffffff05000000b6f814000000000000000000\
         0000000014000000",
    ),
    (
        plan_f,
        &[0, 1],
        100,
        "0100030018003c00540000000200000001000000240008000000000000000000ffffffff03000000000000000000000000000000\
         000000000500000090c2f5289c0300007c14ae4761000000f6285c8f02000000",
    ),
    (
        plan_g,
        &[0],
        100,
        "0200030018006000780000000100000000000000240008000000000000000000ffffffff01000000676666666600000000000000\
         00000000020000000000000000000000ffffffff0200000000000000000000000000000000000000020000009a99999999030000\
         67666666660200009a99999999010000",
    ),
    (
        plan_g,
        &[0, 0, 0],
        100,
        "0200010018006000680000000300000000000000240008000000000000000000ffffffff01000000df2406811501000000000000\
         000000000600000002000000030000000000000002000000c620b07268010000bf9f1a2fdd0000000800000024dbf97eea020000",
    ),
    (
        plan_g,
        &[0, 1, 0, 0],
        100,
        "0200020018006000700000000400000001000000240008000100000002000000ffffffff01000000f7285c8fc200000000000000\
         000000000400000000000000000000000000000003000000c620b07268010000bf9f1a2fdd0000000a0000007f8cb96b09010000\
         00b37bf2b0000000",
    ),
];

pub const F_AFTER_0: Printed = FORMS[2];
pub const F_AFTER_11111: Printed = FORMS[3];
pub const G_AFTER_0100: Printed = FORMS[7];

/// Forms of the same in the older layout, as they were printed then: 15 refuses them.
pub const OLDER: [(fn() -> Draft, &[u32], &str); 5] = [
    (
        plan_f,
        &[],
        "0100010018003800400000000000000000000000200008000000000000000000ffffffff01000000000000000000000000000000\
         000000000000000000040000",
    ),
    (
        plan_f,
        &[1],
        "0100020018003800480000000100000001000000200008000000000000000000ffffffff02000000000000000000000000000000\
         00000000cdcccccccc0300003433333333000000",
    ),
    (
        plan_f,
        &[0],
        "0100020018003800480000000100000000000000200008000000000000000000ffffffff02000000000000000000000000000000\
         00000000cdcccccccc0300003433333333000000",
    ),
    (
        plan_f,
        &[1, 1, 1, 1, 1],
        "0100000018003800380000000500000005000000200008000100000005000000ffffffff05000000b6f814000000000000000000\
         00000000",
    ),
    (
        plan_g,
        &[0, 0, 0],
        "0200010018005800600000000300000000000000200008000000000000000000ffffffff01000000df2406811501000000000000\
         0000000002000000030000000000000002000000c620b07268010000bf9f1a2fdd00000024dbf97eea020000",
    ),
];

pub fn bytes_of(hexadecimal: &str) -> Vec<u8> {
    let pairs = hexadecimal.as_bytes().chunks(2);
    let byte = |pair: &[u8]| u8::from_str_radix(std::str::from_utf8(pair).expect("text"), 16).expect("hexadecimal");
    pairs.map(byte).collect()
}

/// Where a number of a form stands, its bytes, another number for it, and what the next draw, 0, then returns.
pub type Replaced = (usize, usize, u64, u32);

/// Of plan F's form after the draw 0.
pub const IN_OPEN: [Replaced; 28] = [
    (0, 2, 2, 15),
    (2, 2, 1, 15),
    (2, 2, 3, 15),
    (4, 2, 25, 15),
    (6, 2, 56, 15),
    (6, 2, 96, 15),
    (8, 4, 72, 15),
    (8, 4, 75, 15),
    (8, 4, 77, 15),
    (20, 2, 32, 15),
    (22, 2, 6, 15),
    (24, 4, 3, 15),
    (28, 4, 1, 15),
    (36, 4, 1, 15),
    (36, 4, 0, 15),
    (12, 4, 0, 11),
    (12, 4, 201, 11),
    (16, 4, 2, 11),
    (40, 8, 4_393_653, 11),
    (56, 4, 770, 11),
    (56, 4, u32::MAX as u64, 11),
    (60, 8, (1 << 43) + 1, 11),
    (60, 8, 0, 11),
    (12, 4, 200, 10),
    (40, 8, 4_393_652, 100),
    (56, 4, 769, 100),
    (56, 4, 0, 100),
    (60, 8, 1 << 43, 100),
];

/// Of plan G's form after the draws 0100: masses rounded by the threshold that is settled at step 2.
pub const IN_SETTLED: [Replaced; 4] =
    [(56, 4, 1539, 102), (56, 4, 3076, 102), (56, 4, 3077, 11), (56, 4, u32::MAX as u64, 11)];

/// A test carried from its beginning.
pub fn carried(draft: &Draft, draws: &[u32]) -> Scene {
    let words = vec![0; PART * draft.thresholds.len()];
    let mut scene = Scene { plan: plan_of(draft), state: State::default(), words, draw: 0 };
    scene.state = begin(&scene.plan, &mut scene.words);
    for d in draws {
        scene.state = draw(&scene.plan, &scene.state, &mut scene.words, *d as u8, Fault::None);
    }
    scene
}

/// Small forms of plan F, and one of two thresholds, of which one is settled.
pub fn small_forms() -> Vec<(Draft, Vec<u8>)> {
    let of_f = FORMS[..4].iter().map(|(.., form)| *form);
    let mut out: Vec<(Draft, Vec<u8>)> = of_f.map(|form| (plan_f(), bytes_of(form))).collect();
    let pair = with_thresholds(&[10_000, 50_000], 4_398_046_511);
    let pair = Draft { buckets: vec![(0, 10_000), (10_000, 50_000), (50_000, 1_000_000)], ..pair };
    let form = numbers_of(&carried(&pair, &[1; 4])).store();
    out.push((pair, form));
    out
}
