//! The classes that a case belongs to: answer numbers, arms, rules, rows. classes.txt lists those that a run of cases
//! must reach.
use ppc750cl::{Ins, Opcode};

use crate::{
    analysis::{
        RelocationTarget,
        cfa::SectionAddress,
        vm::{GprValue, VM},
    },
    answer::*,
    image::{Image, NO_SYMBOL_SECTION, Section, Tables},
    make_word::row_of,
    obj::{ObjInfo, ObjKind},
    pieces::Words,
};

type Classes = Vec<String>;

macro_rules! put { ($out:expr, $($arg:tt)*) => { $out.push(format!($($arg)*)) } }

/// `current` is the image that the record looks at (for an image record, the new one).
pub fn classes(current: &Image, record: &Record, answer: &[u32]) -> Classes {
    let mut out = Classes::new();
    let mut p = Words::new(&record.payload);
    match record.kind {
        IMAGE => image(&mut out, current),
        DECODE => {
            let word = p.one();
            put!(out, "decode row {}", row_name(word));
            put!(out, "decode op {}", answer[0]);
            put!(out, "decode class {}", answer[1]);
        }
        MASK => {
            let (begin, end) = (p.one(), p.one());
            let shape = match begin {
                b if b == end => "one bit",
                b if b < end => "up",
                b if b == end + 1 => "all",
                _ => "around",
            };
            put!(out, "mask {shape}");
        }
        ROTATE => {
            p.one();
            let amount = p.one();
            put!(
                out,
                "rotate by {}",
                if amount == 0 {
                    "0"
                } else if amount < 32 {
                    "less than 32"
                } else {
                    "more"
                }
            );
        }
        BRANCH => branch(&mut out, &mut p, answer),
        LOOKUP => lookup(&mut out, current, &mut p, answer),
        STEP => {
            let (place, word, vm) = (p.place(), p.one(), p.state());
            step(&mut out, current, place, word, &vm, answer)
        }
        TABLE => table(&mut out, current, &mut p, answer),
        SCRIPT => crate::walk::script_classes(&mut out, current, &mut p, answer),
        WALK => crate::walk::walk_classes(&mut out, current, &mut p, answer),
        WRITE => crate::report::write_classes(&mut out, current, &mut p, answer),
        READ => crate::report::read_classes(&mut out, current, &mut p, answer),
        kind => put!(out, "kind {kind}"),
    }
    out
}

fn row_name(word: u32) -> String {
    match row_of(word) {
        Some((primary, None)) => format!("{primary}"),
        Some((primary, Some(extended))) => format!("{primary}/{extended}"),
        None if matches!(word >> 26, 19 | 31) => format!("{}/none", word >> 26),
        None => format!("{} none", word >> 26),
    }
}

fn image(out: &mut Classes, image: &Image) {
    if let Some(rule) = image.broken {
        put!(out, "image 1: {rule}");
        // How close the last relocation came.
        let Some(t) = Tables::from_words(&image.words) else { return };
        let close = |out: &mut Classes, what: &str, kind: u32, address: u32, s: &Section| {
            let end = s.address as u64 + s.size as u64;
            match (kind, end.wrapping_sub(address as u64)) {
                (0, 3) => put!(out, "image 1: {what}, Absolute with three bytes"),
                (1, 0) => put!(out, "image 1: {what}, other at the end"),
                _ if address < s.address => put!(out, "image 1: {what}, before its section"),
                _ => {}
            }
        };
        match (rule, t.bound.last(), t.unbound.last()) {
            ("bound place", Some(r), _) => close(out, rule, r.kind, r.address, &t.sections[r.section as usize]),
            ("unbound place", _, Some(r)) => {
                let s = t.sections.iter().find(|s| s.elf == r.elf).unwrap();
                close(out, rule, r.kind, r.address, s);
            }
            _ => {}
        }
        refused(out, &t, rule, image.data.len() as u64);
        return;
    }
    let t = Tables::from_words(&image.words).unwrap();
    let kind = if t.kind == 0 { "Executable" } else { "Relocatable" };
    put!(out, "image 0: {kind}");
    let mut at = |holds: bool, what: &str| {
        if holds {
            put!(out, "image 0: {what}");
        }
    };
    at(t.sections.len() == 1, "1 section");
    at(t.sections.len() == 64, "64 sections");
    at(t.bound.len() == 4096, "4096 bound");
    at(t.unbound.len() == 4096, "4096 unbound");
    at(t.symbols.len() == 4096, "4096 symbols");
    at(image.code_words == 262_144, "262144 code words");
    at(image.code_words == 0, "no code word");
    at(image.data.is_empty(), "no data");
    let end = |i: usize| t.sections[i].address as u64 + t.sections[i].size as u64;
    for (i, s) in t.sections.iter().enumerate() {
        at(end(i) == u32::MAX as u64 && s.size > 0, "section ends at 2^32 - 1");
        at(end(i) == u32::MAX as u64 && s.size == 0, "empty section at 2^32 - 1");
        at(s.size == 0 && s.kind == 3, "empty Bss");
        at(s.size == 0 && s.kind == 0, "empty Code");
        at(s.place as usize + s.length as usize == image.data.len() && s.length > 0, "data to the buffer's end");
        at(s.place as usize == image.data.len() && s.length == 0, "no data at the buffer's end");
        at(s.elf == u32::MAX, "elf number 2^32 - 1");
        for (j, r) in t.sections[..i].iter().enumerate() {
            let touch = end(i) == r.address as u64 || end(j) == s.address as u64;
            at(touch && s.size > 0 && r.size > 0, &format!("{kind}: sections that touch"));
            let over = s.address < end(j) as u32 && r.address < end(i) as u32 && s.size > 0 && r.size > 0;
            at(over, "Relocatable: overlap");
            at(
                s.length > 0 && r.length > 0 && s.place < r.place + r.length && r.place < s.place + s.length,
                "shared bytes",
            );
            let empty_inside = s.size == 0 && r.address < s.address && (s.address as u64) < end(j);
            at(empty_inside, &format!("{kind}: empty section inside another"));
        }
    }
    for r in &t.bound {
        let i = r.section as usize;
        at(r.kind == 0 && r.address as u64 + 4 == end(i), "bound: Absolute in the last four bytes");
        at(r.kind == 1 && r.address as u64 + 1 == end(i), "bound: other in the last byte");
        at(r.addend == 0x8000_0000, "bound: least addend");
        at(r.addend == 0x7fff_ffff, "bound: greatest addend");
        at(t.sections[i].kind == 3, "bound: in Bss");
    }
    for (k, r) in t.unbound.iter().enumerate() {
        let i = t.sections.iter().position(|s| s.elf == r.elf).unwrap();
        at(r.kind == 0 && r.address as u64 + 4 == end(i), "unbound: Absolute in the last four bytes");
        at(r.kind == 1 && r.address as u64 + 1 == end(i), "unbound: other in the last byte");
        at(t.sections[i].kind == 3, "unbound: in Bss");
        if t.unbound.len() < 200 {
            at(t.unbound[..k].iter().any(|q| q.elf == r.elf && q.address == r.address), "unbound: two at a place");
        }
    }
    for y in &t.symbols {
        let i = y.section as usize;
        let outside = y.address < t.sections[i].address || y.address as u64 >= end(i);
        at(outside, "symbol outside its section");
    }
    out.sort();
    out.dedup();
}

/// By how much a rule on sections or on order is broken.
fn refused(out: &mut Classes, t: &Tables, rule: &str, buffer: u64) {
    let end = |s: &Section| s.address as u64 + s.size as u64;
    let order = |a: (u32, u32), b: (u32, u32)| match a.cmp(&b) {
        std::cmp::Ordering::Less => None,
        std::cmp::Ordering::Equal => Some("equal"),
        std::cmp::Ordering::Greater if a.0 > b.0 => Some("descending by section"),
        std::cmp::Ordering::Greater => Some("descending"),
    };
    let first = |found: Option<&'static str>| found.unwrap_or("otherwise");
    match rule {
        "section end" => {
            let s = t.sections.iter().find(|s| end(s) >= 1 << 32);
            let how = s.map(|s| match (end(s), s.size) {
                (0x1_0000_0000, 0) => "2^32, empty",
                (0x1_0000_0000, _) => "2^32",
                _ => "more",
            });
            put!(out, "image 1: {rule} {}", first(how));
        }
        "buffer" => {
            let s = t.sections.iter().find(|s| s.place as u64 + s.length as u64 > buffer);
            let how = s.map(|s| {
                let by_one = s.place as u64 + s.length as u64 == buffer + 1;
                let what = if s.kind == 3 {
                    "Bss"
                } else if s.length == 0 {
                    "empty"
                } else {
                    "data"
                };
                format!("{what}, {}", if by_one { "by one" } else { "by more" })
            });
            put!(out, "image 1: {rule} {}", how.unwrap_or_default());
        }
        "data length" => {
            let s = t.sections.iter().find(|s| s.length != if s.kind == 3 { 0 } else { s.size });
            let how = s.map(|s| {
                if s.kind == 3 {
                    "Bss"
                } else if s.length < s.size {
                    "shorter"
                } else {
                    "longer"
                }
            });
            put!(out, "image 1: {rule} {}", first(how));
        }
        "overlap" => {
            let apart = |a: &Section, b: &Section| {
                a.size == 0 || b.size == 0 || end(a) <= b.address as u64 || end(b) <= a.address as u64
            };
            for (i, a) in t.sections.iter().enumerate() {
                for b in t.sections[..i].iter().filter(|b| !apart(a, b)) {
                    let by = end(a).min(end(b)) - a.address.max(b.address) as u64;
                    put!(out, "image 1: overlap, Bss before {}, after {}", b.kind == 3, a.kind == 3);
                    put!(out, "image 1: overlap by {}", if by == 1 { "a byte" } else { "more" });
                }
            }
        }
        "bound order" => {
            let how =
                t.bound.windows(2).find_map(|w| order((w[0].section, w[0].address), (w[1].section, w[1].address)));
            put!(out, "image 1: {rule} {}", first(how));
        }
        "symbol order" => {
            let how =
                t.symbols.windows(2).find_map(|w| order((w[0].section, w[0].address), (w[1].section, w[1].address)));
            put!(out, "image 1: {rule} {}", first(how));
        }
        _ => {}
    }
}

fn branch(out: &mut Classes, p: &mut Words, answer: &[u32]) {
    let (word, address) = (p.one(), p.one());
    let ins = Ins::new(word);
    if answer[0] == 0 {
        put!(out, "branch none");
        return;
    }
    let way = if ins.field_aa() {
        if answer[1] >> 31 == 1 { "absolute, negative" } else { "absolute" }
    } else {
        match (answer[1] < address, answer[1].wrapping_sub(address) >> 31 == 1) {
            (true, true) => "back",
            (true, false) => "forward past 2^32",
            (false, true) => "back below 0",
            (false, false) => "forward",
        }
    };
    put!(out, "branch {:?} {way}", ins.op);
}

/// How the tables answer at a place: written again here, apart from the lookup, to name what decided.
fn relocation(image: &Image, place: SectionAddress, wanted: u32) -> String {
    let t = Tables::from_words(&image.words).unwrap();
    let Some(section) = t.sections.get(place.section as usize) else { return "no section".into() };
    let unbound: Vec<_> = t.unbound.iter().filter(|r| r.elf == section.elf && r.address == place.address).collect();
    let differs = |kind: u32| wanted != 0 && wanted != kind + 1;
    if let Some(r) = t.bound.iter().find(|r| r.section == place.section && r.address == place.address) {
        let external = r.symbol_section == NO_SYMBOL_SECTION;
        let beats = if unbound.is_empty() { "" } else { " beats unbound" };
        let sum = r.symbol_address as i64 + r.addend as i32 as i64;
        let wraps = if sum < 0 {
            " below 0"
        } else if sum >> 32 != 0 {
            " past 2^32"
        } else {
            ""
        };
        return match (differs(r.kind), external) {
            (true, true) => "bound kind before External".into(),
            (true, false) => format!("bound kind{beats}"),
            (false, true) => "bound External".into(),
            (false, false) => format!("bound Address{beats}{wraps}"),
        };
    }
    let Some(r) = unbound.first() else { return "none".into() };
    let first = if unbound.len() > 1 { " first of two" } else { "" };
    if r.module != t.module {
        return if differs(r.kind) {
            "unbound External before kind".into()
        } else {
            format!("unbound External{first}")
        };
    }
    let target = t.sections.iter().find(|s| s.elf == r.target);
    if differs(r.kind) {
        return if target.is_none() { "unbound kind before section".into() } else { "unbound kind".into() };
    }
    match target {
        None => "unbound missing section".into(),
        Some(s) if s.address.checked_add(r.addend).is_none() => "unbound past 2^32".into(),
        Some(s) if s.address.wrapping_add(r.addend) == u32::MAX => "unbound Address 2^32 - 1".into(),
        Some(_) => format!("unbound Address{first}"),
    }
}

fn lookup(out: &mut Classes, image: &Image, p: &mut Words, answer: &[u32]) {
    let which = p.one();
    let Some(obj) = &image.obj else {
        put!(out, "lookup {which}: 1");
        return;
    };
    let kind = format!("{:?}", obj.kind);
    match which {
        1 => {
            let address = p.one();
            let holding = obj.sections.iter().filter(|(_, s)| s.contains(address)).count();
            put!(out, "lookup section: {kind}, {} hold it", holding.min(2));
            if obj.sections.iter().any(|(_, s)| s.address + s.size == address as u64) {
                put!(out, "lookup section: at an end");
            }
        }
        2 => put!(out, "lookup elf number: {}", if answer[1] == 1 { "found" } else { "none" }),
        3 => {
            let (place, wanted) = (p.place(), p.one());
            let how = relocation(image, place, wanted);
            put!(out, "lookup relocation: {how}");
            put!(out, "lookup relocation: wanted {wanted}, error {}, target {}", answer[1], answer[2]);
        }
        4 => {
            let (place, value) = (p.place(), p.one());
            let by = match relocation(image, place, 0).as_str() {
                "none" => "no relocation".to_string(),
                "no section" => "no such section".to_string(),
                how if how.contains("External") => "External".to_string(),
                how if how.starts_with("bound") => "bound".to_string(),
                how if how.contains("Address") => "unbound".to_string(),
                _ => "relocation error".to_string(),
            };
            put!(out, "lookup section_address_for: {kind}, {by}, {}", answer[1]);
            let own = obj.sections.get(place.section).is_some_and(|s| s.contains(value));
            let other = obj.sections.iter().any(|(i, s)| i != place.section && s.contains(value));
            if by == "no relocation" {
                put!(out, "lookup section_address_for: {kind}, own {own}, other {other}");
            }
        }
        5 => {
            let place = p.place();
            let t = Tables::from_words(&image.words).unwrap();
            let here = t.symbols.iter().find(|y| y.section == place.section && y.address == place.address);
            let how = match here {
                None if t.symbols.iter().any(|y| y.address == place.address) => "in another section only",
                None => "none",
                Some(y) if y.known == 0 => "size not known",
                Some(y) if y.size == 0 => "size 0",
                Some(_) => "size",
            };
            put!(out, "lookup symbol: {how}");
        }
        6 | 8 => {
            let place = p.place();
            let what = if which == 6 { "bytes" } else { "word" };
            let how = match obj.sections.get(place.section) {
                None => "no section",
                Some(s) if s.data.is_empty() && s.size > 0 && s.contains(place.address) => "Bss",
                Some(s) if (place.address as u64) < s.address => "below",
                Some(s) if place.address as u64 == s.address + s.size => "at the end",
                Some(s) if place.address as u64 > s.address + s.size => "above",
                Some(s) if place.address as u64 + 4 > s.address + s.size => "fewer than four bytes",
                Some(s) if place.address as u64 == s.address => "from the start",
                Some(_) => "inside",
            };
            put!(out, "lookup {what}: {how}");
        }
        _ => {
            let place = p.place();
            put!(out, "lookup bit: {}", place_name(obj, place));
            if answer[2] == 0 && answer[3] + 1 == answer[1] {
                put!(out, "lookup bit: the last");
            }
            let code_before = obj.sections.iter().filter(|(i, s)| *i < place.section && s.size >= 4).count();
            if answer[2] == 0 && code_before > 0 {
                put!(out, "lookup bit: after another section");
            }
            let other = obj
                .sections
                .iter()
                .any(|(i, s)| i < place.section && s.size >= 4 && s.kind != crate::obj::ObjSectionKind::Code);
            if answer[2] == 0 && other {
                put!(out, "lookup bit: after a section that is no Code");
            }
        }
    }
}

/// Why a place is refused, or that it is not.
pub fn place_name(obj: &ObjInfo, place: SectionAddress) -> &'static str {
    let Some(s) = obj.sections.get(place.section) else { return "2, no section" };
    let code = s.kind == crate::obj::ObjSectionKind::Code;
    let end = s.address + s.size == place.address as u64;
    match (code, s.contains(place.address), place.address % 4 == 0) {
        (false, false, _) => "2, outside of no Code",
        (false, true, _) => "2, no Code",
        (true, false, true) if end => "2, end of Code",
        (true, false, true) => "2, outside",
        (true, false, false) => "2, outside and misaligned",
        (true, true, false) => "3",
        (true, true, true) => "0",
    }
}

fn kind_of(value: GprValue) -> &'static str {
    match value {
        GprValue::Unknown => "Unknown",
        GprValue::Constant(_) => "Constant",
        GprValue::Address(RelocationTarget::External) => "External",
        GprValue::Address(_) => "Address",
        GprValue::ComparisonResult(_) => "Comparison",
        GprValue::Range { .. } => "Range",
        GprValue::LoadIndexed { .. } => "LoadIndexed",
    }
}

/// Constant, address or anything else.
fn sort_of(value: GprValue) -> &'static str {
    match kind_of(value) {
        k @ ("Constant" | "Address" | "External" | "Range") => k,
        _ => "other",
    }
}

/// A Constant or not.
fn known(value: GprValue) -> &'static str {
    if sort_of(value) == "Constant" { "Constant" } else { "other" }
}

fn step(out: &mut Classes, image: &Image, place: SectionAddress, word: u32, vm: &VM, answer: &[u32]) {
    let Some(obj) = &image.obj else {
        put!(out, "step 1");
        return;
    };
    put!(out, "step {}", place_name(obj, place));
    if answer[0] != 0 {
        return;
    }
    let ins = Ins::new(word);
    let op = ins.op;
    put!(out, "step outcome {}", answer[1]);
    put!(out, "step {op:?}");
    let reloc = match relocation(image, place, 0).as_str() {
        "none" => "none",
        how if how.contains("External") => "External",
        how if how.contains("Address") => "Address",
        _ => "error",
    };
    let gpr = |reg: u8| vm.gpr[reg as usize];
    let (d, a, b) = (ins.field_rd(), ins.field_ra(), ins.field_rb());
    let zero = if a == 0 { "rA 0, " } else { "" };
    let found = |value: u32| {
        // What `section_address_for` finds without a relocation.
        match obj.kind {
            ObjKind::Executable => obj.sections.holding(value).is_some(),
            ObjKind::Relocatable => obj.sections[place.section].contains(value),
        }
    };
    let whose = |value: u32| match reloc {
        "none" | "error" if found(value) => format!("{:?} found", obj.kind),
        "none" | "error" => format!("{:?} not found", obj.kind),
        how => format!("relocation {how}"),
    };
    match op {
        Opcode::Illegal => put!(out, "step Illegal {}", row_name(word)),
        Opcode::Add => {
            let sort = |value| if sort_of(value) == "Range" { "other" } else { sort_of(value) };
            match (sort(gpr(a).value), sort(gpr(b).value)) {
                (left, right) if left == "Constant" || right == "Constant" => put!(out, "step add {left} {right}"),
                _ => put!(out, "step add, no Constant"),
            }
        }
        Opcode::Addis => {
            put!(out, "step addis relocation {reloc}");
            if reloc == "Address" || reloc == "none" {
                put!(out, "step addis {zero}relocation {reloc}");
            }
            if reloc == "none" {
                put!(out, "step addis {zero}{}", known(gpr(a).value));
            }
        }
        Opcode::Addi | Opcode::Addic | Opcode::Addic_ => {
            put!(out, "step {op:?} {}relocation {reloc}", if reloc == "none" { zero } else { "" });
            if reloc != "none" {
                put!(out, "step addi and its like {zero}relocation {reloc}");
            }
            if reloc == "none" {
                let sort = sort_of(gpr(a).value);
                put!(out, "step {op:?} {zero}{}", if sort == "External" { "other" } else { sort });
                put!(out, "step addi and its like {sort}");
                if !(a == 0 && op == Opcode::Addi) {
                    put!(out, "step {op:?} older lo {}", gpr(a).lo_addr.is_some());
                }
            }
        }
        Opcode::Subf | Opcode::Subfc => {
            put!(out, "step {op:?} {} {}", known(gpr(a).value), known(gpr(b).value))
        }
        Opcode::Subfic => put!(out, "step subfic {zero}{}", known(gpr(a).value)),
        Opcode::Ori => {
            put!(out, "step ori relocation {reloc}");
            if reloc == "none" {
                put!(out, "step ori {}", kind_of(gpr(d).value));
                if known(gpr(d).value) == "Constant" {
                    put!(out, "step ori of a Constant, top bit {}", ins.field_uimm() >> 15);
                }
            }
            put!(out, "step ori older lo {}", gpr(d).lo_addr.is_some());
        }
        Opcode::Or => {
            if d == b {
                {
                    let other = if d == a { "itself" } else { "another" };
                    put!(out, "step or copy into {other}, hi {}", gpr(d).hi_addr.is_some());
                    put!(out, "step or copy into {other}, lo {}", gpr(d).lo_addr.is_some());
                }
            } else {
                put!(out, "step or {} {}", known(gpr(d).value), known(gpr(b).value));
            }
        }
        Opcode::Cmp | Opcode::Cmpl | Opcode::Cmpi | Opcode::Cmpli => {
            put!(out, "step {op:?} L {}", ins.field_l());
            put!(out, "step {op:?} {}", kind_of(gpr(a).value));
            put!(out, "step compare into field {}", ins.field_crfd());
            put!(out, "step {op:?} immediate sign {}", ins.field_simm() < 0);
        }
        Opcode::Rlwinm | Opcode::Rlwnm => {
            let shift = match (op, gpr(b).value) {
                (Opcode::Rlwinm, _) => "SH",
                (_, GprValue::Constant(c)) if c < 32 => "less than 32",
                (_, GprValue::Constant(_)) => "more",
                _ => "not known",
            };
            let sort = sort_of(gpr(d).value);
            put!(
                out,
                "step {op:?} by {shift} of {}",
                if sort.len() == 8 && sort != "Constant" { "other" } else { sort }
            );
            let (mb, me) = (ins.field_mb(), ins.field_me());
            put!(
                out,
                "step {op:?} mask {}",
                if mb <= me {
                    "up"
                } else if mb == me + 1 {
                    "all"
                } else {
                    "around"
                }
            );
        }
        Opcode::B | Opcode::Bc | Opcode::Bclr | Opcode::Bcctr => {
            let link = if ins.field_lk() { ", linked" } else { "" };
            let to = match op {
                Opcode::Bclr => "Return".into(),
                Opcode::Bcctr => match vm.ctr {
                    GprValue::Constant(c) => format!("Constant {}", whose(c)),
                    GprValue::LoadIndexed { max_offset, .. } => match max_offset {
                        None => "LoadIndexed no offset".into(),
                        Some(n) if n.checked_add(4).is_none() => "LoadIndexed past 2^32".into(),
                        Some(n) if n.get() == 0xffff_fffb => "LoadIndexed to 2^32 - 1".into(),
                        Some(_) => "LoadIndexed offset".into(),
                    },
                    value => kind_of(value).to_string(),
                },
                _ if ins.field_lk() && ins.field_aa() && op == Opcode::B => "bla".into(),
                _ => {
                    let absolute = if ins.field_aa() { "absolute " } else { "" };
                    format!("{absolute}{}", whose(ins.branch_dest(place.address).unwrap()))
                }
            };
            put!(out, "step {op:?}{link} to {to}");
            if ins.field_lk() {
                for (reg, what) in [(1, "r1"), (2, "r2"), (3, "r3"), (13, "r13"), (14, "r14"), (31, "r31")] {
                    if gpr(reg) != Default::default() {
                        put!(out, "step linked with {what}");
                    }
                }
                return;
            }
            if op == Opcode::B {
                return;
            }
            let bo = ins.field_bo();
            let way = match bo {
                _ if bo & 0b10100 == 0b10100 => "always",
                _ if bo & 0b11110 == 0b00100 => "if false",
                _ if bo & 0b11110 == 0b01100 => "if true",
                _ => "counting",
            };
            put!(out, "step {op:?} {way}");
            if op == Opcode::Bc {
                put!(out, "step Bc BO {bo:05b}");
            }
            if way == "if false" || way == "if true" {
                let (crf, crb) = (ins.field_bi() >> 2, ins.field_bi() & 3);
                let cr = &vm.cr[crf as usize];
                let marks = vm.gpr.iter().filter(|g| g.value == GprValue::ComparisonResult(crf)).count();
                let right = match cr.right {
                    GprValue::Constant(0) => "0",
                    GprValue::Constant(u32::MAX) => "2^32 - 1",
                    GprValue::Constant(c) if cr.left == GprValue::Constant(c) => "the same",
                    GprValue::Constant(_) => "Constant",
                    _ => "other",
                };
                if marks > 0 {
                    let left = match sort_of(cr.left) {
                        _ if crb == 3 => "any",
                        sort @ ("Range" | "Constant") => sort,
                        _ => "other",
                    };
                    put!(out, "step split {way} bit {crb} of {left} and {right}");
                    put!(out, "step split of {} marked", marks.min(2));
                    put!(out, "step split signed {}", cr.signed);
                }
            }
        }
        Opcode::Lwzx => {
            let left = match gpr(a).value {
                GprValue::Constant(c) => format!("Constant {}", whose(c)),
                value => sort_of(value).to_string(),
            };
            let right = match gpr(b).value {
                GprValue::Range { max: 0, .. } => "max 0",
                GprValue::Range { max, .. } if max % 4 != 0 && max < 0xffff_fffb => "max ragged",
                GprValue::Range { max: 0xffff_fffc, .. } => "max too great, a multiple of 4",
                GprValue::Range { max, .. } if max >= 0xffff_fffb => "max too great",
                GprValue::Range { max: 0xffff_fff8, .. } => "max greatest",
                GprValue::Range { .. } => "max",
                _ => "other",
            };
            put!(out, "step lwzx {left}");
            if a == 0 {
                put!(out, "step lwzx rA 0, {}", sort_of(gpr(a).value));
            }
            if matches!(sort_of(gpr(a).value), "Constant" | "Address") {
                put!(out, "step lwzx by {right}");
            }
        }
        Opcode::Mtspr => {
            put!(out, "step mtspr {} {}", spr(ins), if spr(ins).ends_with('R') { sort_of(gpr(d).value) } else { "" })
        }
        Opcode::Mfspr => {
            let value = match ins.field_spr() {
                8 => sort_of(vm.lr),
                9 => sort_of(vm.ctr),
                _ => "",
            };
            put!(out, "step mfspr {} {value}", spr(ins));
        }
        Opcode::Rfi => {}
        Opcode::Other => {
            put!(out, "step row {}", row_name(word));
            let written = ins.defs().len();
            put!(out, "step other writes {written}");
        }
        _ => {
            // The loads and stores.
            let base = match gpr(a).value {
                GprValue::Constant(c) => format!("Constant {}", whose(c.wrapping_add(ins.field_simm() as u32))),
                value => sort_of(value).to_string(),
            };
            put!(out, "step load or store over {zero}{base}");
            let base = match sort_of(gpr(a).value) {
                "External" => "Address",
                "Range" => "other",
                sort => sort,
            };
            put!(out, "step {op:?} over {base}{}", if answer[1] == 1 { " in a section" } else { "" });
            if d == a {
                put!(out, "step load or store rD is rA");
            }
            if gpr(a).lo_addr.is_some() {
                put!(out, "step {op:?} older lo");
            }
        }
    }
}

fn spr(ins: Ins) -> &'static str {
    match ins.field_spr() {
        8 => "LR",
        9 => "CTR",
        256 | 288 => "halves not exchanged",
        _ => "other",
    }
}

fn table(out: &mut Classes, image: &Image, p: &mut Words, answer: &[u32]) {
    let place = p.place();
    let size = p.one();
    let (start, end) = (p.place(), p.optional_place());
    let room = p.one();
    put!(out, "table {}", answer[0]);
    let Some(obj) = &image.obj else { return };
    let kind = format!("{:?}", obj.kind);
    let section = match obj.sections.get(place.section) {
        None => {
            put!(out, "table outside: no section");
            return;
        }
        Some(s) => s,
    };
    let data = !matches!(section.kind, crate::obj::ObjSectionKind::Code | crate::obj::ObjSectionKind::Bss);
    if !data || !section.contains(place.address) {
        let ragged = size % 4 != 0;
        put!(out, "table outside: {:?}, holds {}", section.kind, section.contains(place.address));
        put!(out, "table outside: ragged {ragged}");
        if section.contains(place.address) {
            put!(
                out,
                "table outside: in {:?}, {}",
                section.kind,
                if size > 0 && !ragged { "sized" } else { "guessed or ragged" }
            );
        }
        return;
    }
    let t = Tables::from_words(&image.words).unwrap();
    let symbol = t.symbols.iter().find(|y| y.section == place.section && y.address == place.address);
    let (known, by) = match symbol {
        Some(y) if y.known == 1 && y.size > 0 => (y.size, "symbol"),
        Some(y) if y.known == 1 => (size, "symbol of size 0"),
        Some(_) => (size, "symbol of size not known"),
        None if t.symbols.iter().any(|y| y.address == place.address && y.known == 1 && y.size > 0) => {
            (size, "a symbol of another section only")
        }
        None => (size, "no symbol"),
    };
    put!(out, "table {}, {by}", if size == 0 { "found no size" } else { "found size" });
    let way = if known > 0 { "sized" } else { "guessed" };
    if let Some(y) = symbol
        && y.size > 0
        && size > 0
        && answer[0] == 0
    {
        // Both cut to the section.
        let left = (section.address + section.size - place.address as u64) as u32;
        let (by_symbol, found) = (y.size.min(left), size.min(left));
        let order = if by_symbol == found {
            "equal to"
        } else if by_symbol < found {
            "below"
        } else {
            "above"
        };
        put!(out, "table read, known {}, symbol size {order} the found one", y.known);
    }
    put!(out, "table {way} {kind}: {}", answer[0]);
    let section_end = section.address + section.size;
    if place.address % 4 != 0 {
        put!(out, "table {way}, misaligned: {}", answer[0]);
    }
    if answer[0] == 0 && answer[1] == room {
        put!(out, "table {way}, room exact");
    }
    if answer[0] == 0 {
        put!(
            out,
            "table {way}, size {}",
            if answer[2] == 0 {
                "0"
            } else if answer[2] / 4 > answer[1] {
                "and fewer entries"
            } else {
                "and all entries"
            }
        );
    }
    if known > 0 {
        let true_end = place.address as u64 + known as u64;
        let cut = if true_end > 1 << 32 {
            "past 2^32"
        } else if true_end == 1 << 32 {
            "at 2^32"
        } else if true_end > section_end {
            "past the section"
        } else if true_end == section_end {
            "at the section's end"
        } else {
            "inside"
        };
        put!(out, "table end {cut}");
    }
    // Where reading stopped: the entries before it are sound, in the order of the table.
    let stop = if known > 0 {
        if answer[0] == 8 {
            return;
        }
        section_end.min(place.address as u64 + known as u64)
    } else {
        section_end
    };
    let mut at = place.address as u64;
    let word = |at: u64| {
        let from = (at - section.address) as usize;
        section.data.get(from..from + 4).map(|b| u32::from_be_bytes(b.try_into().unwrap()))
    };
    loop {
        if known > 0 && at >= stop {
            put!(out, "table sized: all read");
            return;
        }
        let how = relocation(image, SectionAddress::new(place.section, at as u32), 1);
        let to = match how.as_str() {
            "none" => None,
            h if h.contains("External") && !h.contains("kind before External") => {
                put!(out, "table {way}: stops at {h}");
                return;
            }
            h if h.contains("Address") => {
                put!(out, "table {way}: entry {h}");
                let found =
                    crate::analysis::relocation_target_for(obj, SectionAddress::new(place.section, at as u32), None);
                match found.ok().flatten() {
                    Some(RelocationTarget::Address(a)) => Some(a),
                    _ => return,
                }
            }
            h => {
                put!(out, "table {way}: 7 at {h}");
                if word(at).is_none() {
                    put!(out, "table {way}: 7 at the section's end");
                }
                return;
            }
        };
        let to = match (to, word(at)) {
            (Some(to), _) => to,
            (None, None) => {
                put!(
                    out,
                    "table {way}: stops at the section's end, {} bytes left",
                    section_end.saturating_sub(at).min(4)
                );
                return;
            }
            (None, Some(0)) if known > 0 => {
                put!(out, "table sized: zero skipped, section at 0 {}", obj.sections.holding(0).is_some());
                at += 4;
                continue;
            }
            (None, Some(w)) => match obj.sections.at_address(w) {
                Ok((i, _)) => {
                    put!(out, "table {way}: bare entry{}", if w == 0 { " 0" } else { "" });
                    SectionAddress::new(i, w)
                }
                Err(_) => {
                    let inside = obj.sections.holding(w).is_some();
                    put!(
                        out,
                        "table {way}: {kind}, word {} in no section, held {inside}",
                        if w == 0 { "0" } else { "" }
                    );
                    return;
                }
            },
        };
        if known == 0 {
            let section_decides =
                |q: SectionAddress| to.section != q.section && (to.section < q.section) != (to.address < q.address);
            if to < start {
                put!(out, "table guessed: before the start, by section {}", section_decides(start));
                return;
            }
            if let Some(end) = end
                && to >= end
            {
                put!(
                    out,
                    "table guessed: {} the end, by section {}",
                    if to == end { "at" } else { "past" },
                    section_decides(end)
                );
                return;
            }
            if to == start {
                put!(out, "table guessed: at the start");
            }
            if how == "none" && to.address == 0 {
                put!(out, "table guessed: bare entry 0 taken");
            }
        }
        at += 4;
    }
}
