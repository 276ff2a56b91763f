//! Images for the cases: sound ones of all shapes, and ones with a single rule at, below or above its bound.
use crate::{
    image::{Bound, Image, MAX_ENTRIES, NO_SYMBOL_SECTION, Section, Symbol, Tables, Unbound},
    make_word::{idiom, numbers, word},
    rng::Rng,
};

pub type Made = (Vec<u32>, Vec<u8>);

/// Most sections start low, high, or end at the last number that may be an end.
fn layout(rng: &mut Rng, t: &mut Tables) {
    if t.kind == 1 {
        for s in &mut t.sections {
            let top = u32::MAX - s.size;
            s.address = match rng.below(10) {
                0..=4 => 0,
                5..=7 => 4 * rng.below(16),
                8 => top,
                _ => rng.word() % top,
            };
            if s.kind == 0 {
                s.address &= !3;
            }
        }
        return;
    }
    let mut at = 0u64;
    let gaps = rng.chance(50);
    for s in &mut t.sections {
        if gaps && rng.chance(60) {
            at += rng.below(40) as u64;
        }
        if s.kind == 0 {
            at = at.next_multiple_of(4);
        }
        s.address = at as u32;
        at += s.size as u64;
    }
    let room = u32::MAX - at as u32;
    let base = match rng.below(6) {
        0 => 0,
        1 => 4 * rng.below(9),
        2 => 0x7fff_ffe0,
        // Code keeps its alignment, so only without it the end is exactly 2^32 - 1.
        3 if t.sections.iter().all(|s| s.kind != 0) => room,
        3 => room & !3,
        _ => 0x8000_3100,
    };
    for s in &mut t.sections {
        s.address += base;
    }
}

fn small_size(rng: &mut Rng, kind: u32) -> u32 {
    match kind {
        // Long enough for a number of two groups in a report.
        0 if rng.chance(4) => 4 * rng.from_to(125, 260),
        0 => 4 * rng.pick(&[0, 1, 1, 2, 3, 4, 5, 8, 9, 12, 16, 24, 32, 33]),
        _ if rng.chance(8) => 0,
        _ if rng.chance(75) => 4 * rng.from_to(1, 14),
        _ => rng.from_to(1, 50),
    }
}

/// An address in some section, or about one.
pub fn about(rng: &mut Rng, t: &Tables) -> u32 {
    let s = &t.sections[rng.below(t.sections.len() as u32) as usize];
    let inside = |rng: &mut Rng| s.address.wrapping_add(if s.size == 0 { 0 } else { rng.below(s.size) });
    match rng.below(12) {
        0 => s.address,
        1 => s.address.wrapping_add(s.size),
        2 => s.address.wrapping_add(s.size).wrapping_sub(1),
        3 => s.address.wrapping_sub(1),
        4 | 5 => inside(rng),
        6 => numbers(rng),
        _ => s.address.wrapping_add((inside(rng).wrapping_sub(s.address)) & !3),
    }
}

fn bytes_of(rng: &mut Rng, t: &Tables, s: &Section) -> Vec<u8> {
    let style = rng.below(10);
    let mut out = Vec::new();
    // Code that goes somewhere.
    while s.kind == 0 && style < 6 && out.len() < s.length as usize {
        let at = s.address.wrapping_add(out.len() as u32);
        out.extend(idiom(rng, t, at).iter().flat_map(|w| w.to_be_bytes()));
    }
    while out.len() < s.length as usize {
        let w = match (s.kind, style) {
            (0, _) => word(rng, t, s.address.wrapping_add(out.len() as u32)),
            (_, 0) => numbers(rng),
            (_, 1..=3) if rng.chance(30) => 0,
            // Entries of a table: code words most of all.
            _ if rng.chance(70) => match t.sections.iter().filter(|s| s.kind == 0 && s.size > 0).nth(0) {
                Some(c) => c.address + 4 * rng.below(c.size / 4),
                None => about(rng, t),
            },
            _ => about(rng, t),
        };
        out.extend(w.to_be_bytes());
    }
    out.truncate(s.length as usize);
    out
}

fn relocations(rng: &mut Rng, t: &mut Tables) {
    let share = rng.pick(&[0, 10, 30, 30, 60]);
    let plain = rng.chance(40);
    for i in 0..t.sections.len() {
        let s = t.sections[i].clone();
        let style = rng.below(4);
        for at in 0..s.size {
            let aligned = at % 4 == 0;
            let last = at + 4 > s.size;
            let share = if aligned {
                share
            } else if last {
                8
            } else {
                1
            };
            let bound = style != 1 && rng.chance(share);
            let unbound = style != 0 && rng.chance(share);
            if bound {
                t.bound.push(Bound {
                    section: i as u32,
                    address: s.address + at,
                    kind: (last || !plain && rng.chance(20)) as u32,
                    symbol_section: if !plain && rng.chance(20) {
                        NO_SYMBOL_SECTION
                    } else {
                        rng.below(t.sections.len() as u32)
                    },
                    symbol_address: about(rng, t),
                    addend: addend(rng),
                });
            }
            if unbound {
                for _ in 0..rng.pick(&[1, 1, 1, 2]) {
                    let module = if rng.chance(if plain { 97 } else { 75 }) { t.module } else { t.module ^ 1 };
                    let to = t.sections[rng.below(t.sections.len() as u32) as usize].clone();
                    t.unbound.push(Unbound {
                        elf: s.elf,
                        address: s.address + at,
                        module,
                        kind: (last || !plain && rng.chance(20)) as u32,
                        target: if rng.chance(if plain { 1 } else { 18 }) { numbers(rng) } else { to.elf },
                        // About the last address that a sum may give.
                        addend: match rng.below(12) {
                            0 | 2 if !plain => (u32::MAX - to.address).wrapping_add(rng.below(3)),
                            1 if !plain => numbers(rng),
                            _ => rng.below(to.size.max(1)) & !3,
                        },
                    });
                }
            }
        }
    }
    // Any order serves in the unbound table.
    if rng.chance(50) {
        let mut list = std::mem::take(&mut t.unbound);
        rng.shuffle(&mut list);
        t.unbound = list;
    }
}

fn addend(rng: &mut Rng) -> u32 {
    match rng.below(12) {
        0 => 0x8000_0000,
        1 => 0x7fff_ffff,
        2 => u32::MAX,
        3 => numbers(rng),
        4 => 4u32.wrapping_neg(),
        5..=7 => 4 * rng.below(4),
        _ => 0,
    }
}

fn symbols(rng: &mut Rng, t: &mut Tables) {
    let share = rng.pick(&[0, 10, 40]);
    for i in 0..t.sections.len() {
        let s = t.sections[i].clone();
        for at in 0..s.size {
            if rng.chance(if at % 4 == 0 { share } else { 1 }) {
                let left = s.size - at;
                t.symbols.push(Symbol {
                    section: i as u32,
                    address: s.address + at,
                    size: match rng.below(8) {
                        0 => 0,
                        1 => left,
                        2 => left + 1,
                        3 => numbers(rng),
                        4 => (s.address + at).wrapping_neg(),
                        _ => 4 * rng.from_to(1, 6),
                    },
                    known: rng.chance(65) as u32,
                });
            }
        }
        // "a symbol need not lie in its section"
        if rng.chance(8) {
            let address = s.address.checked_add(s.size);
            if let Some(address) = address {
                t.symbols.push(Symbol { section: i as u32, address, size: 4, known: 1 });
            }
        }
    }
}

/// A sound image.
pub fn sound(rng: &mut Rng) -> (Tables, Vec<u8>) {
    let n = match rng.below(50) {
        0..=3 => 1,
        4..=38 => rng.from_to(2, 5),
        39..=48 => rng.from_to(6, 10),
        _ => rng.pick(&[20, 63, 64]),
    };
    let mut t = Tables { kind: rng.below(2), module: rng.pick(&[0, 1, 7, u32::MAX]), ..Default::default() };
    let odd = rng.chance(10);
    for i in 0..n {
        let kind = match i {
            0 if !odd => 0,
            1 if !odd => rng.from_to(1, 2),
            _ => rng.pick(&[0, 0, 1, 1, 2, 2, 3]),
        };
        let size = if n > 10 { small_size(rng, kind).min(8) } else { small_size(rng, kind) };
        let length = if kind == 3 { 0 } else { size };
        t.sections.push(Section { size, kind, length, ..Default::default() });
    }
    let mut list = std::mem::take(&mut t.sections);
    rng.shuffle(&mut list);
    t.sections = list;
    layout(rng, &mut t);
    let mut order: Vec<usize> = (0..n as usize).collect();
    rng.shuffle(&mut order);
    // The table's order need not be the addresses' order.
    if rng.chance(50) {
        t.sections = order.iter().map(|i| t.sections[*i].clone()).collect();
    }
    let mut elves: Vec<u32> = (0..n + 3).collect();
    if rng.chance(30) {
        elves[0] = u32::MAX;
        elves[1] = rng.word() | 0x100;
    }
    rng.shuffle(&mut elves);
    for (s, elf) in t.sections.iter_mut().zip(elves) {
        s.elf = elf;
    }
    let mut data = Vec::new();
    for i in 0..t.sections.len() {
        let s = t.sections[i].clone();
        let shared = s.length as usize <= data.len() && rng.chance(12);
        t.sections[i].place = if shared || s.length == 0 && rng.chance(50) {
            rng.below((data.len() - s.length as usize) as u32 + 1)
        } else {
            if rng.chance(20) {
                data.resize(data.len() + rng.below(7) as usize, 0xee);
            }
            let place = data.len() as u32;
            let mut bytes = bytes_of(rng, &t, &s);
            data.append(&mut bytes);
            place
        };
    }
    relocations(rng, &mut t);
    symbols(rng, &mut t);
    debug_assert!(t.broken(data.len()).is_none());
    (t, data)
}

/// A section of the wanted kind and size, apart from every other; its data is in the buffer.
fn probe(t: &mut Tables, data: &mut Vec<u8>, kind: u32, size: u32) -> usize {
    let mut at: u64 = 0x1000;
    // Behind every section, or in the first hole that is wide enough on both sides.
    loop {
        let clash = t.sections.iter().find(|s| {
            s.size > 0 && at < s.address as u64 + s.size as u64 + 64 && (s.address as u64) < at + size as u64 + 64
        });
        match clash {
            Some(s) => at = (s.address as u64 + s.size as u64 + 64).next_multiple_of(4),
            None => break,
        }
    }
    if data.len() < size as usize + 8 {
        data.resize(size as usize + 8, 0x11);
    }
    let elf = (0..).find(|e| t.sections.iter().all(|s| s.elf != *e)).unwrap();
    let length = if kind == 3 { 0 } else { size };
    let place = 7 * elf % (data.len() as u32 - length + 1);
    let i = t.sections.len();
    t.sections.push(Section { address: at as u32, size, kind, elf, place, length });
    i
}

pub const EDGES: u32 = 42;

/// An image whose rule number `edge` stands at, below or above its bound; all other rules hold.
pub fn at_edge(rng: &mut Rng, edge: u32) -> Made {
    let (mut t, mut data) = loop {
        let made = sound(rng);
        let end = made.0.sections.iter().map(|s| s.address as u64 + s.size as u64).max();
        if made.0.sections.len() < 60 && end.unwrap() < 0xf000_0000 {
            break made;
        }
    };
    let n = t.sections.len() as u32;
    let some = rng.below(n) as usize;
    match edge {
        0 => t.kind = rng.pick(&[2, 3, 0x100, u32::MAX]),
        1 => t = Tables { kind: t.kind, module: t.module, ..Default::default() },
        2 | 3 => {
            let wanted = rng.pick(&[63, 64, 65, 65, 66]);
            while t.sections.len() < wanted {
                let kind = rng.below(4);
                probe(&mut t, &mut data, kind, 4 * rng.pick(&[0, 1]));
            }
        }
        4 => {
            // The list's own length.
            let mut words = t.to_words();
            match rng.below(6) {
                0 => words.truncate(words.len() - 1),
                1 => words.push(0),
                2 => words.truncate(rng.below(7) as usize),
                3 => words[2] = rng.pick(&[n + 1, n - 1, u32::MAX, 0x2aaa_aaab]),
                4 => {
                    let at = rng.pick(&[3, 4, 5]);
                    words[at] = words[at].wrapping_add(rng.pick(&[1, u32::MAX]));
                }
                _ => words.clear(),
            }
            return (words, data);
        }
        5..=7 => {
            // A section's end at 2^32, one below, one above.
            let kind = rng.below(4);
            let size = rng.pick(&[0, 4, 8]) + if kind == 0 { 0 } else { rng.below(4) };
            let i = probe(&mut t, &mut data, kind, size);
            let end = rng.pick(&[u32::MAX as u64 - 3, u32::MAX as u64, 1 << 32, (1 << 32) + 1, (1 << 32) + 4]);
            t.sections[i].address = (end - size as u64).min(u32::MAX as u64) as u32;
            if kind == 0 {
                t.sections[i].address &= !3;
            }
        }
        8 | 9 => {
            // "data exactly size bytes, none for Bss"
            let kind = rng.below(4);
            let i = probe(&mut t, &mut data, kind, 8);
            t.sections[i].place = 0;
            let length = t.sections[i].length;
            t.sections[i].length = rng.pick(&[length, length + 1, length.wrapping_sub(1), 8, 0]);
        }
        10..=12 => {
            // Place and length against the buffer's end, for empty ones and Bss too.
            let kind = rng.below(4);
            let i = probe(&mut t, &mut data, kind, rng.pick(&[0, 0, 8]));
            let length = t.sections[i].length;
            let last = data.len() as u32 - length;
            t.sections[i].place = rng.pick(&[last, last, last + 1, last + 1, u32::MAX, u32::MAX - length + 1]);
        }
        13 => {
            let i = probe(&mut t, &mut data, 0, 8);
            t.sections[i].address += rng.pick(&[1, 2, 3, 4]);
        }
        14 => {
            let kind = rng.pick(&[0, 0, 1]);
            let size = rng.pick(&[1, 2, 3, 5, 6, 7, 8]);
            probe(&mut t, &mut data, kind, size);
        }
        15 => {
            let i = probe(&mut t, &mut data, 3, 4);
            t.sections[i].elf = t.sections[some].elf;
        }
        16 => {
            let i = probe(&mut t, &mut data, rng.from_to(1, 3), 4);
            t.sections[i].kind = rng.pick(&[4, 5, 0x100, u32::MAX]);
            t.sections[i].length = rng.pick(&[0, 4]);
            t.sections[i].place = 0;
        }
        17..=21 => {
            // Two sections that touch, overlap by a byte, lie in one another, or are one inside an empty one's place.
            let kinds = (rng.pick(&[1, 2, 3]), rng.pick(&[1, 2, 3, 3]));
            let a = probe(&mut t, &mut data, kinds.0, rng.from_to(2, 12));
            let b = probe(&mut t, &mut data, kinds.1, rng.from_to(2, 12));
            let (start, size) = (t.sections[a].address, t.sections[a].size);
            let own = t.sections[b].size;
            t.sections[b].address = match rng.below(7) {
                0 => start + size,
                1 => start + size - 1,
                2 => start - own,
                3 => start - own + 1,
                4 => start,
                _ => {
                    t.sections[b].size = rng.below(2);
                    t.sections[b].length = if kinds.1 == 3 { 0 } else { t.sections[b].size };
                    start + 1
                }
            };
            if rng.chance(50) {
                t.sections.swap(a, b);
            }
        }
        22 | 40 | 41 => {
            // The order of the bound table.
            let i = probe(&mut t, &mut data, rng.below(4), 16);
            t.bound.clear();
            let step = rng.pick(&[1, 0, 0, u32::MAX]);
            let address = t.sections[i].address + 4;
            for k in 0..2u32 {
                let address = address.wrapping_add(step.wrapping_mul(k));
                t.bound.push(Bound { section: i as u32, address, kind: rng.below(2), ..Default::default() });
            }
            if rng.chance(40) {
                // By section before address.
                let j = probe(&mut t, &mut data, 1, 8);
                t.bound[1].section = j as u32;
                t.bound[1].address = t.sections[j].address;
                if rng.chance(40) {
                    t.bound.swap(0, 1);
                }
            }
        }
        23..=27 => {
            // A relocation about its section's bounds, bound or unbound.
            let size = rng.pick(&[0, 1, 3, 4, 5, 8]);
            let kind = rng.pick(&[1, 2, 3]);
            let i = probe(&mut t, &mut data, kind, size);
            let (start, size) = (t.sections[i].address, t.sections[i].size);
            let address = match rng.below(8) {
                0 => start,
                1 => start - 1,
                2 => start + size,
                3 => start + size - 1,
                4 => start + size - 4,
                5 => start + size - 3,
                6 => start + size + 1,
                _ => start + 1,
            };
            let kind = rng.below(2);
            if rng.chance(50) {
                let symbol_section = NO_SYMBOL_SECTION;
                let section = i as u32;
                t.bound.push(Bound { section, address, kind, symbol_section, symbol_address: 0, addend: 0 });
            } else {
                let elf = t.sections[i].elf;
                t.unbound.push(Unbound { elf, address, module: t.module, kind, target: elf, addend: 0 });
            }
        }
        28 => {
            let i = probe(&mut t, &mut data, 1, 8);
            let n = t.sections.len() as u32;
            let section = rng.pick(&[n - 1, n, n + 1, u32::MAX]);
            let address = t.sections[i].address;
            t.bound.push(Bound { section, address, symbol_section: 0, ..Default::default() });
        }
        29 => {
            let i = probe(&mut t, &mut data, 1, 8);
            let n = t.sections.len() as u32;
            let symbol_section = rng.pick(&[n - 1, n, n + 1, u32::MAX - 1, u32::MAX]);
            let address = t.sections[i].address;
            t.bound.push(Bound { section: i as u32, address, symbol_section, ..Default::default() });
        }
        30 => {
            let i = probe(&mut t, &mut data, 1, 8);
            let (address, elf) = (t.sections[i].address, t.sections[i].elf);
            let kind = rng.pick(&[1, 2, 2, u32::MAX]);
            if rng.chance(50) {
                t.bound.push(Bound { section: i as u32, address, kind, ..Default::default() });
            } else {
                t.unbound.push(Unbound { elf, address, kind, ..Default::default() });
            }
        }
        31 | 32 => {
            // The own elf number must be there whatever the module; the target's need not.
            let i = probe(&mut t, &mut data, 1, 8);
            let missing = (0..).find(|e| t.sections.iter().all(|s| s.elf != *e)).unwrap();
            let elf = rng.pick(&[missing, i as u32, t.sections[i].elf]);
            let address = t.sections[i].address;
            let module = t.module ^ rng.below(2);
            t.unbound.push(Unbound { elf, address, module, kind: 0, target: missing, addend: u32::MAX });
        }
        33 => {
            let n = t.sections.len() as u32;
            let section = rng.pick(&[n - 1, n, u32::MAX]);
            t.symbols.push(Symbol { section, address: u32::MAX, size: 1, known: 1 });
        }
        34 => {
            let known = rng.pick(&[0, 1, 2, u32::MAX]);
            t.symbols.push(Symbol { section: n - 1, address: u32::MAX, size: 1, known });
        }
        35 => {
            t.symbols.clear();
            let step = rng.pick(&[1, 0, u32::MAX]);
            for k in 0..2u32 {
                let address = 100u32.wrapping_add(step.wrapping_mul(k));
                t.symbols.push(Symbol { section: 0, address, size: k, known: 1 });
            }
            if rng.chance(40) {
                t.symbols[rng.below(2) as usize].section = n - 1;
            }
        }
        36 => data.clear(),
        37 => {
            let cut = rng.below(data.len() as u32 + 1) as usize;
            data.truncate(cut);
        }
        38 => {
            // One number of the list replaced by another.
            let mut words = t.to_words();
            let at = rng.below(words.len() as u32) as usize;
            words[at] = if rng.chance(50) { numbers(rng) } else { about(rng, &t) };
            return (words, data);
        }
        _ => {
            t.symbols.clear();
            t.symbols.push(Symbol { section: n - 1, address: numbers(rng), size: numbers(rng), known: 1 });
        }
    }
    (t.to_words(), data)
}

pub const GIANTS: &[u32] = &[0, 1, 2, 3, 4, 5, 6, 7, 8];
pub const EVERY_WORD: u32 = 9;

/// Images at and past the bounds that need many words.
pub fn giant(rng: &mut Rng, which: u32) -> Made {
    let kind = rng.below(2);
    let mut t = Tables { kind, module: 0, ..Default::default() };
    let over = which % 2;
    let code = |address: u32, words: u32, elf: u32| Section {
        address,
        size: 4 * words,
        kind: 0,
        elf,
        place: 0,
        length: 4 * words,
    };
    let mut data: Vec<u8> = Vec::new();
    let mut fill = |rng: &mut Rng, words: u32| {
        for _ in 0..words {
            data.extend(rng.word().to_be_bytes());
        }
    };
    match which {
        0 | 1 => {
            // W in 64 sections that share their bytes.
            for i in 0..64 {
                t.sections.push(code(i * 0x10000, 4096 + if i == 40 { over } else { 0 }, i));
            }
            fill(rng, 4097);
        }
        2 | 3 => {
            t.sections.push(Section { address: 0x1000, size: 0x2000, kind: 3, ..Default::default() });
            for i in 0..MAX_ENTRIES as u32 + over {
                let address = 0x1000 + i;
                t.bound.push(Bound { section: 0, address, kind: 1, symbol_address: i, ..Default::default() });
            }
        }
        4 | 5 => {
            t.sections.push(Section { address: 0x1000, size: 0x2000, kind: 3, elf: 5, ..Default::default() });
            for i in 0..MAX_ENTRIES as u32 + over {
                let address = 0x1000 + (i * 5) % 0x1ffc;
                t.unbound.push(Unbound { elf: 5, address, target: 5, addend: i, ..Default::default() });
            }
        }
        6 | 7 => {
            t.sections.push(Section { address: 0x1000, size: 4, kind: 3, ..Default::default() });
            for i in 0..MAX_ENTRIES as u32 + over {
                t.symbols.push(Symbol { section: 0, address: 2 * i, size: i, known: i & 1 });
            }
        }
        8 => {
            // A table of 1,100 distinct entries, the last 1,024 of them a table too; code that jumps by each.
            t.kind = 0;
            let words = 1100u32;
            t.sections.push(Section { address: 0x8000, size: 4 * words, kind: 1, elf: 1, place: 0, length: 4 * words });
            t.sections.push(Section { place: 4 * words, ..code(0x2000, words, 2) });
            for i in 0..words {
                data.extend((0x2000 + 4 * ((i * 7) % words)).to_be_bytes());
            }
            for table in [0x8000u32, 0x8000 + 4 * (words - 1024)] {
                // lis, addi, lwzx, mtctr, bctr
                let lo = table & 0xffff;
                for w in [0x3c60_0001, 0x3863_0000 | lo, 0x7d83_002e, 0x7d89_03a6, 0x4e80_0420] {
                    data.extend(u32::to_be_bytes(w));
                }
            }
            while data.len() < 8 * words as usize {
                data.extend(0x4e80_0020u32.to_be_bytes());
            }
        }
        _ => {
            // One section with every code word that an image may have.
            t.kind = 0;
            t.sections.push(code(0x100, 262_144, 2));
            data = vec![0x60; 4 * 262_144];
        }
    }
    (t.to_words(), data)
}

pub fn tables_of(image: &Image) -> Tables {
    Tables::from_words(&image.words).unwrap_or_default()
}
