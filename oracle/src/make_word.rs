//! Instruction words for the cases: every row of the decoder, fields chosen to be awkward.
use ppc750cl::*;

use crate::{image::Tables, make_image::about, rng::Rng};

/// Numbers about which rules change.
pub fn numbers(rng: &mut Rng) -> u32 {
    match rng.below(8) {
        0 => rng.below(9),
        1 => rng.below(9).wrapping_neg(),
        2 => 1u32 << rng.below(32),
        3 => (1u32 << rng.below(32)).wrapping_sub(1),
        4 => rng.pick(&[31, 32, 33, 63, 64, 255, 0x7fff, 0x8000, 0xffff, 0x1_0000, 0x7fff_ffff, 0x8000_0000]),
        // "below 4,294,967,291"
        5 => rng.pick(&[0xffff_fff8, 0xffff_fffa, 0xffff_fffb, 0xffff_fffc, 28, 124, 295, 1180, 4, 8, 12]),
        6 => rng.below(0x1_0000),
        _ => rng.word(),
    }
}

/// A row of the decoder: primary opcode, and extended opcode under 19 and 31.
pub type Row = (u32, Option<u32>);

/// Every row that the paper lists.
pub fn rows() -> Vec<Row> {
    let mut out: Vec<Row> = Vec::new();
    out.extend(PRIMARY.iter().map(|r| (r.0, None)));
    out.extend(D_PRIMARY.iter().chain(&A_PRIMARY).chain(&NONE_PRIMARY).map(|p| (*p, None)));
    out.extend(UNDER_19.iter().map(|r| (19, Some(r.0))));
    out.extend(NONE_19.iter().map(|x| (19, Some(*x))));
    out.extend(UNDER_31.iter().map(|r| (31, Some(r.0))));
    out.extend(D_31_OE.iter().map(|x| (31, Some(*x))));
    out.extend(D_31_OE.iter().map(|x| (31, Some(*x + 512))));
    out.extend(D_31.iter().chain(&DA_31).chain(&A_31).chain(&NONE_31).map(|x| (31, Some(*x))));
    out
}

/// The row of a word, if it is listed.
pub fn row_of(word: u32) -> Option<Row> {
    let primary = word >> 26;
    let row = (primary, (primary == 19 || primary == 31).then_some((word >> 1) & 0x3ff));
    rows().contains(&row).then_some(row)
}

/// A word of the row, all other bits random.
pub fn word_of(rng: &mut Rng, row: Row) -> u32 {
    let rest = rng.word() & 0x03ff_ffff;
    row.0 << 26 | row.1.map_or(rest, |x| rest & !0x7fe | x << 1)
}

/// The opcodes that `step` tells apart, those with many arms more often.
fn told_apart(rng: &mut Rng) -> Row {
    match rng.below(100) {
        0..=16 => (rng.pick(&[12, 13, 14, 15, 12, 13, 14, 15, 8]), None),
        17..=22 => (31, Some(23)),
        23..=36 => (16, None),
        37..=42 => (18, None),
        43..=54 => (19, Some(rng.pick(&[16, 528, 528, 528, 50]))),
        55..=57 => (rng.pick(&[10, 11]), None),
        58..=61 => (31, Some(rng.pick(&[0, 32]))),
        62..=67 => (31, Some(rng.pick(&[339, 467]))),
        68..=74 => (rng.pick(&[21, 23]), None),
        75..=78 => (31, Some(UNDER_31[rng.below(12) as usize].0)),
        79 | 80 => (31, Some(444)),
        81..=83 => (24, None),
        _ => (PRIMARY[rng.below(36) as usize].0, None),
    }
}

fn near_miss(rng: &mut Rng) -> u32 {
    match rng.below(5) {
        0 => rng.word() & 0x03ff_ffff | rng.pick(&[0, 1, 2, 5, 6, 9, 22, 30, 58, 62]) << 26,
        1 => word_of(rng, (19, None)) & !0x7fe | rng.below(1024) << 1,
        2 => {
            // A listed row with 512 added or taken away.
            let under: Vec<u32> = rows().iter().filter(|r| r.0 == 31).map(|r| r.1.unwrap()).collect();
            let x = rng.pick(&under) ^ 512;
            word_of(rng, (31, Some(x)))
        }
        3 => {
            let x = rng.below(1024);
            word_of(rng, (31, Some(x)))
        }
        _ => {
            let under: Vec<u32> = rows().iter().filter(|r| r.0 == 19).map(|r| r.1.unwrap()).collect();
            let x = rng.pick(&under) ^ (1 << rng.below(10));
            word_of(rng, (19, Some(x)))
        }
    }
}

fn set(word: u32, from: u32, to: u32, value: u32) -> u32 {
    let mask = ((1u64 << (to - from + 1)) - 1) as u32;
    word & !(mask << (31 - to)) | (value & mask) << (31 - to)
}

/// A word to be stepped at `address`.
pub fn word(rng: &mut Rng, t: &Tables, address: u32) -> u32 {
    let all = rows();
    let mut w = match rng.below(20) {
        0 => return rng.word(),
        1 | 2 => return near_miss(rng),
        3..=5 => {
            let row = rng.pick(&all);
            word_of(rng, row)
        }
        _ => {
            let row = told_apart(rng);
            word_of(rng, row)
        }
    };
    // Register 0 as a base, and the same register twice.
    if rng.chance(15) {
        w = set(w, 11, 15, 0);
    } else if rng.chance(10) {
        w = set(w, 11, 15, (w >> 21) & 31);
    }
    let primary = w >> 26;
    let extended = (w >> 1) & 0x3ff;
    if rng.chance(if extended == 444 { 40 } else { 10 }) {
        w = set(w, 16, 20, (w >> 21) & 31);
    }
    let to = about(rng, t);
    match primary {
        16 | 18 => {
            let absolute = rng.chance(28);
            let near = if absolute { to } else { to.wrapping_sub(address) };
            w = set(w, 30, 30, absolute as u32);
            w = set(w, 31, 31, rng.chance(25) as u32);
            if near & 3 == 0 && rng.chance(75) {
                w = if primary == 16 { set(w, 16, 29, near >> 2) } else { set(w, 6, 29, near >> 2) };
            }
            if primary == 16 && rng.chance(80) {
                w = set(w, 6, 10, rng.pick(&[20, 21, 28, 12, 13, 4, 5, 0, 2, 8, 10, 16, 18, 14, 6, 12, 4]));
            }
        }
        19 if extended == 16 || extended == 528 => {
            w = set(w, 6, 10, rng.pick(&[20, 20, 20, 12, 4, 0, 16, 18, 10, 13]));
            w = set(w, 31, 31, rng.chance(35) as u32);
        }
        31 if extended == 339 || extended == 467 => {
            let spr = rng.pick(&[8, 8, 8, 9, 9, 9, 1, 264, 288, 256, 272]);
            w = set(w, 11, 15, spr & 31);
            w = set(w, 16, 20, spr >> 5);
        }
        31 if extended == 0 || extended == 32 => w = set(w, 10, 10, rng.chance(15) as u32),
        10 | 11 => w = set(w, 10, 10, rng.chance(15) as u32),
        21 | 23 if rng.chance(40) => {
            let (mb, me) = rng.pick(&[(0, 31), (0, 29), (5, 4), (31, 0), (27, 29), (25, 29), (0, 0), (31, 31), (1, 0)]);
            w = set(w, 21, 25, mb);
            w = set(w, 26, 30, me);
            if rng.chance(50) {
                w = set(w, 16, 20, rng.pick(&[0, 1, 2, 31]));
            }
        }
        _ if rng.chance(25) => w = set(w, 16, 31, numbers(rng)),
        _ => {}
    }
    // mtspr and mfspr keep their number, extended opcodes too.
    if primary == 31 || primary == 19 { set(w, 21, 30, extended) } else { w }
}

/// A bc or bclr that splits on a compare field.
pub fn splitting(rng: &mut Rng) -> u32 {
    let row = if rng.chance(80) { (16, None) } else { (19, Some(rng.pick(&[16, 528]))) };
    let w = word_of(rng, row);
    let w = set(w, 6, 10, rng.pick(&[12, 13, 4, 5, 12, 4, 14, 6]));
    set(w, 31, 31, 0)
}

/// A word for the decoder alone.
pub fn any_word(rng: &mut Rng) -> u32 {
    match rng.below(10) {
        0 => rng.word(),
        1..=3 => near_miss(rng),
        _ => {
            let all = rows();
            let row = rng.pick(&all);
            word_of(rng, row)
        }
    }
}

/// Words of a short idiom: a table jump, a compare with a branch, a call, straight words.
pub fn idiom(rng: &mut Rng, t: &Tables, address: u32) -> Vec<u32> {
    let (x, y) = (rng.from_to(3, 12), rng.from_to(3, 12));
    let d_form = |op: u32, d: u32, a: u32, n: u32| op << 26 | d << 21 | a << 16 | n & 0xffff;
    let near = |rng: &mut Rng, at: u32| (about(rng, t) & !3).wrapping_sub(at);
    match rng.below(10) {
        0..=2 => {
            // lis, addi, a scaled index, lwzx, mtctr, bctr
            let tables: Vec<u32> =
                t.sections.iter().filter(|s| s.kind == 1 || s.kind == 2).map(|s| s.address).collect();
            let table = if tables.is_empty() { about(rng, t) } else { rng.pick(&tables) };
            let lo = table & 0xffff;
            let hi = (table >> 16).wrapping_add(lo >> 15);
            let mut out = vec![d_form(15, x, 0, hi), d_form(14, x, x, lo)];
            if rng.chance(70) {
                let last = 30 - rng.from_to(1, 3);
                out.push(21 << 26 | y << 21 | 2 << 11 | last << 6 | 29 << 1);
            }
            out.push(31 << 26 | 12 << 21 | x << 16 | 23 << 1);
            out.push(31 << 26 | 12 << 21 | 9 << 16 | 467 << 1);
            out.push(19 << 26 | rng.pick(&[20, 20, 20, 12]) << 21 | 528 << 1 | rng.chance(10) as u32);
            out
        }
        3 | 4 => {
            // cmplwi, bgt
            let bo = rng.pick(&[12, 4]);
            let to = near(rng, address.wrapping_add(4));
            vec![d_form(10, 0, y, rng.below(9)), d_form(16, bo, rng.below(4), to & 0xfffc)]
        }
        5 => {
            let to = near(rng, address);
            vec![18 << 26 | to & 0x03ff_fffc | rng.chance(50) as u32]
        }
        6 => vec![rng.pick(&[0x4e80_0020, 0x4e80_0020, 0x4e80_0420, 0x4e80_0421])],
        _ => (0..rng.from_to(1, 5))
            .map(|_| match rng.below(4) {
                0 => d_form(14, x, rng.below(2), numbers(rng)),
                1 => 0x6000_0000,
                2 => d_form(36, x, 1, 8),
                _ => d_form(32, x, y, numbers(rng)),
            })
            .collect(),
    }
}
