//! Cases from a seed: groups of an image and the cases that look at it.
use std::num::NonZeroU32;

use ppc750cl::{Ins, Opcode};

use crate::{
    Kinds,
    analysis::{
        RelocationTarget,
        cfa::SectionAddress,
        vm::{Cr, Gpr, GprValue, VM},
    },
    answer::*,
    image::{Image, Tables},
    make_image::*,
    make_word::*,
    pieces::*,
    report::report,
    rng::Rng,
    walk::{run_script, set_bit},
};

/// What a case may look at.
pub struct Ground {
    pub t: Tables,
    pub image: Image,
    pub giant: bool,
}

/// A group of records; the first is the image. The others are of the kinds asked for; giants are made in turn.
pub fn group(rng: &mut Rng, number: u64, giants: &[u32], kinds: Kinds) -> Vec<Record> {
    let (mut made, mut giant_one) = (None, false);
    match rng.below(100) {
        _ if number % 50 == 7 => {
            // In turn; the one with a mebibyte of data only now and then.
            let turn = (number / 50) as usize;
            let last = giants == GIANTS && turn % 40 == 39;
            let which = if last { EVERY_WORD } else { giants[turn % giants.len()] };
            made = Some(giant(rng, which));
            giant_one = true;
        }
        0..=54 => {
            let edge = rng.below(EDGES);
            made = Some(at_edge(rng, edge));
        }
        _ => {}
    }
    let edged = made.is_some();
    let (words, data) = made.unwrap_or_else(|| {
        let (t, data) = sound(rng);
        (t.to_words(), data)
    });
    let mut payload = vec![words.len() as u32];
    payload.extend(&words);
    payload.push(data.len() as u32);
    payload.extend(pack(&data));
    let mut out = vec![Record { kind: IMAGE, payload }];

    let image = Image::new(words, data);
    let t = tables_of(&image);
    // A refused image's numbers are still good for awkward cases, if there are any.
    let t = if t.sections.is_empty() || t.sections.len() > 66 { sound(rng).0 } else { t };
    let refused = image.broken.is_some();
    let ground = Ground { t, image, giant: giant_one };
    let count = if refused {
        rng.from_to(0, 4)
    } else if edged {
        rng.from_to(2, 12)
    } else {
        rng.from_to(15, 45)
    };
    if giant_one && great_table(&ground) && kinds.has(WALK) {
        out.extend([walk(rng, &ground), walk(rng, &ground), walk(rng, &ground)]);
    }
    let upper = [SCRIPT, SCRIPT, WALK, WALK, WALK, WRITE, READ];
    let upper: Vec<u32> = upper.into_iter().filter(|k| kinds.has(*k)).collect();
    let lower = (DECODE..=TABLE).any(|k| kinds.has(k));
    for _ in 0..count {
        let draw = rng.below(100);
        if !upper.is_empty() && (draw < 14 || !lower) && (ground.image.code_words < 5000 || draw == 0) {
            out.push(match rng.pick(&upper) {
                SCRIPT => script(rng, &ground),
                WALK => walk(rng, &ground),
                WRITE => report_write(rng, &ground),
                _ => report_read(rng, &ground),
            });
            continue;
        }
        let case = match rng.below(100) {
            0..=7 => Record { kind: DECODE, payload: vec![any_word(rng)] },
            8 => Record { kind: MASK, payload: vec![rng.below(32), rng.below(32)] },
            9 => Record { kind: MASK, payload: mask_edge(rng) },
            10 => Record { kind: ROTATE, payload: vec![numbers(rng), numbers(rng)] },
            11..=13 => branch(rng, &ground),
            14..=31 => lookup(rng, &ground),
            32..=77 => step(rng, &ground),
            _ => table(rng, &ground),
        };
        if kinds.has(case.kind) {
            out.push(case);
        }
    }
    out
}

fn mask_edge(rng: &mut Rng) -> Vec<u32> {
    let begin = rng.below(32);
    let end = match rng.below(4) {
        0 => begin,
        1 => (begin + 31) % 32,
        2 => (begin + 30) % 32,
        _ => (begin + 1) % 32,
    };
    vec![begin, end]
}

fn branch(rng: &mut Rng, g: &Ground) -> Record {
    let address = if rng.chance(50) { numbers(rng) & !3 } else { about(rng, &g.t) };
    let w = match rng.below(4) {
        0 => word(rng, &g.t, address),
        1 => any_word(rng),
        k => word_of(rng, (if k == 2 { 16 } else { 18 }, None)),
    };
    Record { kind: BRANCH, payload: vec![w, address] }
}

/// A section index, mostly one that is there.
fn index(rng: &mut Rng, g: &Ground) -> u32 {
    let n = g.t.sections.len() as u32;
    if rng.chance(93) { rng.below(n) } else { rng.pick(&[n, n + 1, 63, 64, 255, 0x1_0000, u32::MAX]) }
}

/// A place of a relocation.
fn relocated(rng: &mut Rng, g: &Ground, wanted: impl Fn(u32) -> bool) -> Option<SectionAddress> {
    let t = &g.t;
    let mut places: Vec<SectionAddress> = Vec::new();
    let fits = |i: usize| t.sections.get(i).is_some_and(|s| wanted(s.kind));
    for r in t.bound.iter().filter(|r| fits(r.section as usize)) {
        places.push(SectionAddress::new(r.section, r.address));
    }
    for r in &t.unbound {
        if let Some(i) = t.sections.iter().position(|s| s.elf == r.elf).filter(|i| fits(*i)) {
            places.push(SectionAddress::new(i as u32, r.address));
        }
    }
    if places.is_empty() { None } else { Some(rng.pick(&places)) }
}

fn any_place(rng: &mut Rng, g: &Ground) -> SectionAddress {
    if rng.chance(40)
        && let Some(p) = relocated(rng, g, |_| true)
    {
        return p;
    }
    place_in(rng, g, |_| true)
}

/// A place in or about a section that is wanted.
fn place_in(rng: &mut Rng, g: &Ground, wanted: impl Fn(u32) -> bool) -> SectionAddress {
    let found: Vec<u32> = (0..g.t.sections.len() as u32).filter(|i| wanted(g.t.sections[*i as usize].kind)).collect();
    if found.is_empty() || rng.chance(4) {
        return SectionAddress::new(index(rng, g), about(rng, &g.t));
    }
    let i = rng.pick(&found);
    let s = &g.t.sections[i as usize];
    let address = match rng.below(14) {
        0 => s.address.wrapping_sub(rng.pick(&[1, 4])),
        1 => s.address.wrapping_add(s.size),
        2 if s.size > 0 => s.address + rng.below(s.size),
        3 => s.address.wrapping_add(s.size).wrapping_sub(rng.from_to(1, 5)),
        4 | 5 => s.address,
        _ if s.size >= 4 => s.address + 4 * rng.below(s.size / 4),
        _ => s.address,
    };
    SectionAddress::new(i, address)
}

fn lookup(rng: &mut Rng, g: &Ground) -> Record {
    let nowhere = rng.chance(3);
    let mut record = lookup_there(rng, g);
    if nowhere && record.payload.len() > 2 {
        let n = g.t.sections.len() as u32;
        record.payload[1] = rng.pick(&[n, n + 1, 64, 255, u32::MAX]);
    }
    record
}

fn lookup_there(rng: &mut Rng, g: &Ground) -> Record {
    let which = rng.pick(&[1, 2, 3, 3, 3, 3, 4, 4, 5, 6, 7, 8]);
    let mut payload = vec![which];
    match which {
        1 => payload.push(about(rng, &g.t)),
        2 => {
            let s = &g.t.sections[rng.below(g.t.sections.len() as u32) as usize];
            payload.push(if rng.chance(70) {
                s.elf
            } else if rng.chance(70) {
                index(rng, g)
            } else {
                numbers(rng)
            });
        }
        3 => {
            let p = any_place(rng, g);
            payload.extend([p.section, p.address, rng.pick(&[0, 0, 1, 1, 2])]);
        }
        4 => {
            let p = if rng.chance(50) { any_place(rng, g) } else { place_in(rng, g, |k| k == 0) };
            payload.extend([p.section, p.address, about(rng, &g.t)]);
        }
        5 => {
            let p = match rng.below(4) {
                0..=2 if !g.t.symbols.is_empty() => {
                    let y = &g.t.symbols[rng.below(g.t.symbols.len() as u32) as usize];
                    let section = if rng.chance(85) { y.section } else { index(rng, g) };
                    SectionAddress::new(section, y.address)
                }
                _ => any_place(rng, g),
            };
            payload.extend([p.section, p.address]);
        }
        7 => {
            let p = place_in(rng, g, |k| k == 0);
            payload.extend([p.section, p.address]);
        }
        _ => {
            let p = place_in(rng, g, |_| true);
            let inside = g.giant && which == 6;
            let p = if inside { near_end(g, p) } else { p };
            payload.extend([p.section, p.address]);
        }
    }
    Record { kind: LOOKUP, payload }
}

fn near_end(g: &Ground, p: SectionAddress) -> SectionAddress {
    match g.t.sections.get(p.section as usize) {
        Some(s) if s.size > 64 => SectionAddress::new(p.section, s.address + s.size - 61),
        _ => p,
    }
}

/// Where a state's places and targets point: often into the image, sometimes nowhere.
fn loose_place(rng: &mut Rng, g: &Ground) -> SectionAddress {
    SectionAddress::new(index(rng, g), if rng.chance(80) { about(rng, &g.t) } else { numbers(rng) })
}

fn target(rng: &mut Rng, g: &Ground) -> RelocationTarget {
    if rng.chance(26) { RelocationTarget::External } else { RelocationTarget::Address(loose_place(rng, g)) }
}

fn constant(rng: &mut Rng, g: &Ground) -> GprValue {
    GprValue::Constant(if rng.chance(50) { about(rng, &g.t) } else { numbers(rng) })
}

fn range(rng: &mut Rng) -> GprValue {
    let max = match rng.below(4) {
        0 => numbers(rng),
        1 => numbers(rng) & !3,
        2 => rng.pick(&[0, 28, 0xffff_fff8, 0xffff_fffb, 0xffff_fffc, 4]),
        _ => rng.below(0x400),
    };
    let min = if rng.chance(60) { rng.below(4) } else { numbers(rng) };
    GprValue::Range { min, max, step: if rng.chance(70) { 1 << rng.below(32) } else { numbers(rng) } }
}

fn load_indexed(rng: &mut Rng, g: &Ground) -> GprValue {
    let max_offset = match rng.below(6) {
        0 => 0,
        1 => rng.pick(&[0xffff_fffb, 0xffff_fffc, 0xffff_ffff, 0xffff_fff8, 1]),
        _ => 4 * rng.below(64),
    };
    GprValue::LoadIndexed { address: target(rng, g), max_offset: NonZeroU32::new(max_offset) }
}

pub fn value(rng: &mut Rng, g: &Ground) -> GprValue {
    match rng.below(10) {
        0 => GprValue::Unknown,
        1..=3 => constant(rng, g),
        4 | 5 => GprValue::Address(target(rng, g)),
        6 => GprValue::ComparisonResult(if rng.chance(96) { rng.below(8) as u8 } else { rng.below(256) as u8 }),
        7 | 8 => range(rng),
        _ => load_indexed(rng, g),
    }
}

pub fn register(rng: &mut Rng, g: &Ground) -> Gpr {
    Gpr {
        value: value(rng, g),
        hi_addr: rng.chance(45).then(|| loose_place(rng, g)),
        lo_addr: rng.chance(35).then(|| loose_place(rng, g)),
    }
}

/// A state with something in what the word looks at.
pub fn state_for(rng: &mut Rng, g: &Ground, ins: Ins) -> Box<VM> {
    let mut vm = VM::new();
    let dense = rng.chance(2);
    if dense {
        for i in 0..32 {
            vm.gpr[i] = register(rng, g);
        }
        for i in 0..8 {
            vm.cr[i] = Cr { left: value(rng, g), right: value(rng, g), signed: rng.chance(50) };
        }
        vm.lr = value(rng, g);
        vm.ctr = value(rng, g);
    }
    for _ in 0..rng.pick(&[0, 0, 1, 2, 3]) {
        vm.gpr[rng.below(32) as usize] = register(rng, g);
    }
    for reg in [ins.field_rd(), ins.field_ra(), ins.field_rb()] {
        if rng.chance(75) {
            vm.gpr[reg as usize] = register(rng, g);
        }
    }
    let (a, b, d) = (ins.field_ra() as usize, ins.field_rb() as usize, ins.field_rd() as usize);
    match ins.op {
        Opcode::Add | Opcode::Subf | Opcode::Subfc => {
            for reg in [a, b] {
                match rng.below(10) {
                    0..=4 => vm.gpr[reg].value = constant(rng, g),
                    5 | 6 => vm.gpr[reg].value = GprValue::Address(target(rng, g)),
                    _ => {}
                }
            }
        }
        Opcode::Or | Opcode::Rlwnm => {
            if rng.chance(50) {
                vm.gpr[d].value = constant(rng, g);
            }
            if rng.chance(60) {
                vm.gpr[b].value = constant(rng, g);
            }
        }
        Opcode::Lwzx => {
            if rng.chance(70) {
                vm.gpr[b].value = range(rng);
            }
            if rng.chance(80) {
                vm.gpr[a].value = if rng.chance(50) { constant(rng, g) } else { GprValue::Address(target(rng, g)) };
            }
        }
        Opcode::B | Opcode::Bc | Opcode::Bclr | Opcode::Bcctr => {
            // Linked branches keep r1, r2, r13 and r14 to r31.
            for reg in [1, 2, 3, 12, 13, 14, 31] {
                if rng.chance(25) {
                    vm.gpr[reg] = register(rng, g);
                }
            }
            let crf = ins.field_bi() >> 2;
            if ins.op != Opcode::B {
                let left = value(rng, g);
                vm.cr[crf as usize] = Cr {
                    left: if rng.chance(40) { range(rng) } else { left },
                    right: match rng.below(10) {
                        0..=4 => constant(rng, g),
                        5 => GprValue::Constant(rng.pick(&[0, u32::MAX])),
                        6 if matches!(left, GprValue::Constant(_)) => left,
                        _ => value(rng, g),
                    },
                    signed: rng.chance(50),
                };
                if rng.chance(15)
                    && let GprValue::Constant(c) = vm.cr[crf as usize].right
                {
                    vm.cr[crf as usize].left = GprValue::Constant(c);
                }
                for _ in 0..rng.pick(&[0, 1, 1, 2, 3]) {
                    vm.gpr[rng.below(32) as usize].value = GprValue::ComparisonResult(crf);
                }
                if rng.chance(20) {
                    vm.gpr[rng.below(32) as usize].value = GprValue::ComparisonResult((crf + 1) % 8);
                }
            }
            if rng.chance(80) {
                vm.ctr = match rng.below(4) {
                    0 => constant(rng, g),
                    1 | 2 => load_indexed(rng, g),
                    _ => value(rng, g),
                };
            }
            if rng.chance(30) {
                vm.lr = value(rng, g);
            }
        }
        Opcode::Addi | Opcode::Addic | Opcode::Addic_ if rng.chance(45) => {
            vm.gpr[a].value = if rng.chance(50) { constant(rng, g) } else { GprValue::Address(target(rng, g)) };
        }
        Opcode::Mfspr | Opcode::Mtspr => {
            if rng.chance(80) {
                vm.lr = value(rng, g);
            }
            if rng.chance(80) {
                vm.ctr = value(rng, g);
            }
        }
        _ => {}
    }
    vm
}

/// An aligned word of a Code section.
fn code_word(rng: &mut Rng, g: &Ground) -> Option<SectionAddress> {
    let found: Vec<u32> = (0..g.t.sections.len() as u32)
        .filter(|i| g.t.sections[*i as usize].kind == 0 && g.t.sections[*i as usize].size >= 4)
        .collect();
    if found.is_empty() {
        return None;
    }
    let i = rng.pick(&found);
    let s = &g.t.sections[i as usize];
    Some(SectionAddress::new(i, s.address + 4 * rng.below(s.size / 4)))
}

fn step(rng: &mut Rng, g: &Ground) -> Record {
    let place = match rng.below(40) {
        0 => any_place(rng, g),
        1 => place_in(rng, g, |_| true),
        2 => place_in(rng, g, |k| k == 0),
        k => {
            let found = if k < 18 { relocated(rng, g, |kind| kind == 0) } else { None };
            let p = found.or_else(|| code_word(rng, g)).unwrap_or_else(|| place_in(rng, g, |k| k == 0));
            SectionAddress::new(p.section, p.address & !3)
        }
    };
    if rng.chance(11) {
        return split(rng, g, place);
    }
    let w = word(rng, &g.t, place.address);
    // A load's base that reaches into a section.
    let ins = Ins::new(w);
    let mut vm = state_for(rng, g, ins);
    if w >> 26 >= 32 && rng.chance(20) {
        vm.gpr[ins.field_ra() as usize].value = GprValue::Address(target(rng, g));
    } else if w >> 26 >= 32 && rng.chance(45) {
        let base = about(rng, &g.t).wrapping_sub(ins.field_simm() as u32);
        vm.gpr[ins.field_ra() as usize].value = GprValue::Constant(base);
    }
    let mut payload = vec![place.section, place.address, w];
    put_state(&mut payload, &vm);
    Record { kind: STEP, payload }
}

/// A conditional branch on a compare field that registers are marked with.
fn split(rng: &mut Rng, g: &Ground, place: SectionAddress) -> Record {
    let w = splitting(rng);
    let ins = Ins::new(w);
    let mut vm = VM::new();
    let crf = ins.field_bi() >> 2;
    let right = match rng.below(6) {
        0 => GprValue::Constant(0),
        1 => GprValue::Constant(u32::MAX),
        2 => value(rng, g),
        _ => constant(rng, g),
    };
    let left = match rng.below(8) {
        0..=2 => range(rng),
        3 => constant(rng, g),
        4 if matches!(right, GprValue::Constant(_)) => right,
        _ => value(rng, g),
    };
    vm.cr[crf as usize] = Cr { left, right, signed: rng.chance(50) };
    for _ in 0..rng.from_to(1, 3) {
        vm.gpr[rng.below(32) as usize] = Gpr { value: GprValue::ComparisonResult(crf), ..register(rng, g) };
    }
    vm.gpr[rng.below(32) as usize].value = GprValue::ComparisonResult((crf + 1) % 8);
    if rng.chance(30) {
        vm.ctr = value(rng, g);
    }
    let mut payload = vec![place.section, place.address, w];
    put_state(&mut payload, &vm);
    Record { kind: STEP, payload }
}

fn table(rng: &mut Rng, g: &Ground) -> Record {
    let t = &g.t;
    let data = place_in(rng, g, |k| k == 1 || k == 2);
    let place = match rng.below(30) {
        0 => any_place(rng, g),
        1 => place_in(rng, g, |k| k == 0 || k == 3),
        // Where relocations or a symbol stand.
        2..=6 => relocated(rng, g, |k| k == 1 || k == 2).unwrap_or_else(|| place_in(rng, g, |k| k == 1 || k == 2)),
        7 | 8 if !t.symbols.is_empty() => {
            let y = &t.symbols[rng.below(t.symbols.len() as u32) as usize];
            SectionAddress::new(y.section, y.address)
        }
        9 | 10 => data,
        _ if g.giant && rng.chance(60) => {
            // At or about the first 1,024 entries of the one great table.
            let at = t.sections[0].address + 4 * rng.pick(&[0, 75, 76, 77]);
            SectionAddress::new(0, at)
        }
        _ => match t.sections.get(data.section as usize) {
            Some(s) if s.size >= 4 => SectionAddress::new(data.section, s.address + 4 * rng.below(s.size / 4)),
            _ => data,
        },
    };
    let left = t
        .sections
        .get(place.section as usize)
        .map_or(0, |s| s.address.wrapping_add(s.size).wrapping_sub(place.address));
    let size = match rng.below(16) {
        0..=6 => 0,
        7 => left,
        8 => left.wrapping_add(rng.pick(&[1, 4, u32::MAX, u32::MAX - 3])),
        9 => place.address.wrapping_neg().wrapping_add(rng.below(9)).wrapping_sub(4),
        10 => rng.pick(&[u32::MAX, u32::MAX - 3, 1, 2, 3, 5, 0x8000_0000]),
        11 => numbers(rng),
        _ => 4 * rng.from_to(1, 6),
    };
    // What is read without bounds tells where bounds and room are close.
    let free = g
        .image
        .obj
        .as_ref()
        .and_then(|obj| entries(obj, place, NonZeroU32::new(size), SectionAddress::new(0, 0), None).ok());
    let found: Vec<SectionAddress> = free.map_or(vec![], |f| f.0);
    let bound = |rng: &mut Rng| -> SectionAddress {
        if !found.is_empty() && rng.chance(70) {
            let p = found[rng.below(found.len() as u32) as usize];
            SectionAddress::new(p.section, p.address.wrapping_add(rng.pick(&[0, 0, 1, u32::MAX])))
        } else {
            loose_place(rng, g)
        }
    };
    let start = if rng.chance(60) { SectionAddress::new(0, 0) } else { bound(rng) };
    let end = rng.chance(50).then(|| bound(rng));
    let count = g
        .image
        .obj
        .as_ref()
        .and_then(|obj| entries(obj, place, NonZeroU32::new(size), start, end).ok())
        .map_or(0, |f| f.0.len() as u32);
    let room = match rng.below(8) {
        0 => count,
        1 | 2 => count.saturating_sub(1),
        3 => 0,
        4 if g.giant => 1024,
        5 => count / 2,
        _ => count + rng.below(4),
    };
    let mut payload = vec![place.section, place.address, size, start.section, start.address];
    put_optional_place(&mut payload, end);
    payload.extend([room, rng.word() | 1]);
    Record { kind: TABLE, payload }
}

/// A map with room for W bits, sometimes one word more or less.
fn map(rng: &mut Rng, g: &Ground) -> Vec<u32> {
    let words = g.image.code_words.div_ceil(32);
    let words = match rng.below(16) {
        0 => words.saturating_sub(1),
        1..=3 => words + 1,
        4 => rng.below(words + 1),
        _ => words,
    };
    let style = rng.below(6);
    let mut out: Vec<u32> = (0..words)
        .map(|_| match style {
            0 => rng.word(),
            1 => rng.word() & rng.word() & rng.word(),
            2 => u32::MAX,
            _ => 0,
        })
        .collect();
    // Bits from W up are the caller's.
    for at in g.image.code_words..(32 * words) {
        set_bit(&mut out, at, rng.chance(50));
    }
    out
}

fn small_state(rng: &mut Rng, g: &Ground) -> Box<VM> {
    let mut vm = VM::new();
    for _ in 0..rng.below(3) {
        vm.gpr[rng.below(32) as usize] = register(rng, g);
    }
    if rng.chance(20) {
        vm.cr[rng.below(8) as usize] = Cr { left: value(rng, g), right: value(rng, g), signed: rng.chance(50) };
    }
    if rng.chance(20) {
        vm.ctr = value(rng, g);
    }
    if rng.chance(10) {
        vm.lr = value(rng, g);
    }
    vm
}

/// A place in a section that is not there.
fn nowhere(rng: &mut Rng, g: &Ground) -> SectionAddress {
    let n = g.t.sections.len() as u32;
    SectionAddress::new(rng.pick(&[n, n + 1, 64, 255, u32::MAX]), about(rng, &g.t))
}

/// Mostly an aligned code word.
fn start(rng: &mut Rng, g: &Ground) -> SectionAddress {
    if rng.chance(2) {
        return nowhere(rng, g);
    }
    if rng.chance(88)
        && let Some(p) = code_word(rng, g)
    {
        return p;
    }
    place_in(rng, g, |k| k == 0)
}

fn script(rng: &mut Rng, g: &Ground) -> Record {
    let slots = rng.pick(&[0, 1, 1, 2, 2, 3, 4, 8, 8, 8]);
    let map = map(rng, g);
    let mut head = vec![slots, map.len() as u32];
    head.extend(&map);
    let (mut ops, mut count) = (Vec::new(), 0);
    let with = |ops: &[u32], count: u32| {
        let mut payload = head.clone();
        payload.push(count);
        payload.extend(ops);
        payload
    };
    let wanted = rng.from_to(3, 18);
    while count < wanted {
        // What runs or waits now decides what is asked next.
        let payload = with(&ops, count);
        let (_, now) = run_script(&g.image, &mut Words::new(&payload));
        let usual = rng.chance(90);
        let idle = !now.waits && !now.runs && now.held == 0;
        match if idle && rng.chance(75) { 0 } else { rng.below(20) } {
            0..=3 => {
                let place = start(rng, g);
                ops.extend([1, rng.chance(60) as u32, place.section, place.address]);
                put_state(&mut ops, &small_state(rng, g));
            }
            4 | 5 => {
                let place = start(rng, g);
                ops.extend([4, place.section, place.address]);
            }
            6 => {
                let place = match rng.below(16) {
                    0 => nowhere(rng, g),
                    1..=7 => any_place(rng, g),
                    _ => place_in(rng, g, |k| k == 0),
                };
                let waiting = rng.below(2);
                let code = g.t.sections.get(place.section as usize).filter(|s| s.kind == 0);
                let end = code.is_some_and(|s| s.address.wrapping_add(s.size) == place.address);
                let sound = g.image.obj.as_ref().is_some_and(|obj| judge_place(obj, place) == 0);
                if sound || end && waiting == 0 {
                    continue;
                }
                ops.extend([5, waiting, place.section, place.address]);
            }
            _ if now.waits == usual => {
                let here = now.here.unwrap_or(SectionAddress::new(0, 0));
                let kind = rng.pick(&[0, 0, 0, 1, 1, 2, 3]);
                let to = match rng.below(14) {
                    0 => any_place(rng, g),
                    12 | 13 => place_in(rng, g, |k| k == 0),
                    1 => here,
                    2 => start(rng, g),
                    3 if rng.chance(30) => nowhere(rng, g),
                    3 => SectionAddress::new(here.section, about(rng, &g.t)),
                    _ => {
                        // In the same section.
                        let s = g.t.sections.get(here.section as usize).filter(|s| s.size >= 4);
                        let at = s.map_or(here.address, |s| s.address + 4 * rng.below(s.size / 4));
                        SectionAddress::new(here.section, at + rng.chance(6) as u32)
                    }
                };
                let to = if kind == 1 { to } else { SectionAddress::new(0, 0) };
                let changed = rng.chance(25);
                ops.extend([3, kind, to.section, to.address, changed as u32]);
                if changed {
                    put_state(&mut ops, &small_state(rng, g));
                }
            }
            _ => ops.push(2),
        }
        count += 1;
    }
    Record { kind: SCRIPT, payload: with(&ops, count) }
}

/// Is this the giant with code that jumps by a great table?
fn great_table(g: &Ground) -> bool {
    g.t.sections.len() == 2 && g.t.sections[1].address == 0x2000
}

fn walk(rng: &mut Rng, g: &Ground) -> Record {
    let words = map(rng, g).len() as u32;
    let fill = match rng.below(3) {
        0 => 0,
        1 => u32::MAX,
        _ => rng.word(),
    };
    let count = rng.pick(&[0, 1, 1, 1, 1, 2, 2, 2, 3, 5]);
    // Few slots end the walk with 5, at the starts or later.
    let slots = match rng.below(10) {
        0..=3 => count + rng.below(3),
        4 => rng.below(3),
        _ => 64,
    };
    let mut payload = vec![slots, words, fill];
    for _ in 0..2 {
        let given = rng.chance(50);
        payload.extend([given as u32, if given { about(rng, &g.t) } else { 0 }]);
    }
    let from = if rng.chance(70) { SectionAddress::new(0, 0) } else { loose_place(rng, g) };
    payload.extend([from.section, from.address]);
    put_optional_place(&mut payload, rng.chance(30).then(|| loose_place(rng, g)));
    payload.push(count);
    for _ in 0..count {
        let place = match rng.below(20) {
            _ if g.giant && great_table(g) => Some(SectionAddress::new(1, 0x2000 + 20 * rng.below(2))),
            0 => None,
            1 => Some(place_in(rng, g, |k| k == 0)),
            2 => Some(any_place(rng, g)),
            _ => code_word(rng, g),
        };
        let place = place.unwrap_or_else(|| start(rng, g));
        payload.extend([place.section, place.address]);
    }
    // Two bad starts: the first one decides.
    if count >= 2 && rng.chance(12) {
        let (a, b) = (payload.len() - 4, payload.len() - 2);
        let (bad, misaligned) = if rng.chance(50) { (a, b) } else { (b, a) };
        payload[bad] = g.t.sections.len() as u32;
        payload[misaligned + 1] |= 1;
    }
    Record { kind: WALK, payload }
}

fn report_write(rng: &mut Rng, g: &Ground) -> Record {
    let map = map(rng, g);
    let enough = map.len() as u64 * 32 >= g.image.code_words as u64;
    let length = match &g.image.obj {
        Some(obj) if enough => report(obj, &map).len() as u32,
        _ => 3,
    };
    let room = match rng.below(6) {
        0 | 1 => length,
        2 => length - 1,
        3 => rng.below(length),
        _ => length + rng.below(9),
    };
    let mut payload = vec![map.len() as u32];
    payload.extend(&map);
    payload.extend([room.min(4096), rng.below(256)]);
    Record { kind: WRITE, payload }
}

fn report_read(rng: &mut Rng, g: &Ground) -> Record {
    let before = map(rng, g);
    // Bits to be found in the report, whatever the map was.
    let words = g.image.code_words.div_ceil(32);
    let dense = rng.below(4);
    let bits: Vec<u32> = (0..words)
        .map(|_| match dense {
            0 => rng.word(),
            1 => u32::MAX,
            2 => rng.word() & rng.word(),
            _ => 0,
        })
        .collect();
    let mut bytes = g.image.obj.as_ref().map_or(vec![1, 1, 0], |obj| report(obj, &bits));
    match rng.below(16) {
        0..=4 => {}
        5 => bytes.truncate(rng.below(bytes.len() as u32) as usize),
        6 => bytes.push(rng.pick(&[0, 1, 0x80])),
        7 => bytes[0] = rng.pick(&[0, 2, 0x81, 1]),
        8 => bytes[1] = bytes[1].wrapping_add(rng.pick(&[1, 255, 128])),
        9 | 10 => {
            // A number in a longer form.
            let at = rng.below(bytes.len() as u32) as usize;
            if bytes[at] < 0x80 {
                bytes[at] |= 0x80;
                bytes.splice(
                    at + 1..at + 1,
                    rng.pick(&[&[0][..], &[0x80, 0], &[0x80, 0x80, 0x80, 0], &[0x80, 0x80, 0x80, 0x80, 0]])
                        .iter()
                        .copied(),
                );
            }
        }
        11 | 12 => {
            let at = rng.below(bytes.len() as u32) as usize;
            bytes[at] = match rng.below(5) {
                0 => 0,
                1 => bytes[at].wrapping_add(1),
                2 => bytes[at].wrapping_sub(1),
                3 => bytes[at] ^ 1 << rng.below(8),
                _ => rng.below(256) as u8,
            };
        }
        13 => {
            // A run cut in two, or two joined: one more or one fewer run.
            if let Some(obj) = &g.image.obj {
                bytes = vec![1, obj.sections.len() as u8];
                for (_, s) in obj.sections.iter() {
                    let words = if s.kind == crate::obj::ObjSectionKind::Code { s.size as u32 / 4 } else { 0 };
                    match words {
                        2..=9 => bytes.extend([2, 0, 1, rng.below(2) as u8, words as u8 - 1]),
                        10..=100 => {
                            bytes.extend([2, rng.below(2) as u8, rng.below(3) as u8, 1, rng.from_to(0, words) as u8])
                        }
                        _ if rng.chance(10) => bytes.extend([1, 0, rng.below(2) as u8]),
                        _ => bytes.push(0),
                    }
                }
            }
        }
        14 => {
            // Numbers about 2^32.
            let at = rng.below(bytes.len() as u32) as usize;
            let long: &[u8] = match rng.below(4) {
                0 => &[0xff, 0xff, 0xff, 0xff, 0x0f],
                1 => &[0x80, 0x80, 0x80, 0x80, 0x10],
                2 => &[0xff, 0xff, 0xff, 0xff, 0x1f],
                _ => &[0xff, 0xff, 0xff, 0xff, 0xff, 0x01],
            };
            bytes.splice(at..at + 1, long.iter().copied());
        }
        _ => bytes = (0..rng.below(8)).map(|_| rng.below(4) as u8).collect(),
    }
    bytes.truncate(4096);
    let mut payload = vec![before.len() as u32];
    payload.extend(&before);
    payload.push(bytes.len() as u32);
    payload.extend(pack(&bytes));
    Record { kind: READ, payload }
}
