//! Reports (document 01, "Report (added)"): no Rust has them, so both sides are written from the paper.
use plants::on;

use crate::{
    image::Image,
    obj::{ObjInfo, ObjSectionKind},
    pieces::*,
    walk::{bit, set_bit, too_short},
};

/// "numbers in groups of seven bits, low group first, top bit set on all but the last, shortest form, below 2^32"
fn put_number(out: &mut Vec<u8>, mut number: u32) {
    while number >= 0x80 {
        out.push(number as u8 & 0x7f | 0x80);
        number >>= 7;
    }
    out.push(number as u8);
}

fn take_number(bytes: &mut &[u8]) -> Option<u32> {
    let mut number = 0u64;
    // A sixth group is never the last of a number below 2^32 in shortest form.
    for group in 0..5 {
        let (first, rest) = bytes.split_first()?;
        *bytes = rest;
        number |= ((first & 0x7f) as u64) << (7 * group);
        if first & 0x80 == 0 {
            let shortest = *first != 0 || group == 0 || on(78);
            return (shortest && number >> 32 == 0).then_some(number as u32);
        }
    }
    None
}

/// The first bit and the count of words of each section: none but Code has any.
fn spans(obj: &ObjInfo) -> Vec<(u32, u32)> {
    let mut at = 0;
    let mut span = |s: &crate::obj::ObjSection| {
        let words = if s.kind == ObjSectionKind::Code { s.size as u32 / 4 } else { 0 };
        at += words;
        (at - words, words)
    };
    obj.sections.iter().map(|(_, s)| span(s)).collect()
}

/// The report of the map's first W bits.
pub fn report(obj: &ObjInfo, map: &[u32]) -> Vec<u8> {
    let mut out = Vec::new();
    put_number(&mut out, 1);
    put_number(&mut out, obj.sections.len());
    for (first, words) in spans(obj) {
        let (mut runs, mut at, mut gap_from) = (Vec::new(), 0, 0);
        while at < words {
            if bit(map, first + at) {
                let from = at;
                while at < words && bit(map, first + at) {
                    at += 1;
                }
                runs.push((from - gap_from, at - from + on(94) as u32));
                gap_from = if on(88) { 0 } else { at };
            } else {
                at += 1;
            }
        }
        put_number(&mut out, runs.len() as u32);
        for (gap, length) in runs {
            put_number(&mut out, gap);
            put_number(&mut out, length);
        }
    }
    out
}

/// The bits that the bytes say, if they are a report of this image.
fn visited(obj: &ObjInfo, mut bytes: &[u8]) -> Option<Vec<bool>> {
    let bytes = &mut bytes;
    let mut out = Vec::new();
    let agree = |holds: bool| holds.then_some(());
    agree(take_number(bytes)? == 1)?;
    agree(take_number(bytes)? == obj.sections.len())?;
    for (_, words) in spans(obj) {
        let end = out.len() as u64 + words as u64;
        for run in 0..take_number(bytes)? {
            let (gap, length) = (take_number(bytes)?, take_number(bytes)?);
            // Maximal runs: words between two of them, and words in each.
            agree(length >= 1 && (run == 0 || gap >= 1 || on(79)))?;
            agree(out.len() as u64 + gap as u64 + length as u64 <= end + on(95) as u64)?;
            out.resize(out.len() + gap as usize, false);
            out.resize(out.len() + length as usize, true);
        }
        out.resize(end as usize, false);
    }
    agree(bytes.is_empty() || on(80))?;
    Some(out)
}

pub fn write(current: &Image, p: &mut Words) -> Vec<u32> {
    let count = p.one() as usize;
    let map = p.many(count);
    let (room, fill) = (p.one() as usize, p.one() as u8);
    let mut buffer = vec![fill; room];
    let (number, length) = match &current.obj {
        None => (1, 0),
        Some(_) if too_short(count, current.code_words) => (4, 0),
        Some(obj) => {
            let bytes = report(obj, map);
            if bytes.len() > room {
                buffer.fill(0);
                (10, 0)
            } else {
                // "Bytes past a written report stay as they were."
                buffer[..bytes.len()].copy_from_slice(&bytes);
                (0, bytes.len() as u32)
            }
        }
    };
    let mut out = vec![number, length];
    out.extend(pack(&buffer));
    out
}

pub fn read(current: &Image, p: &mut Words) -> Vec<u32> {
    let count = p.one() as usize;
    let mut map = p.many(count).to_vec();
    let bytes = p.bytes();
    let number = match &current.obj {
        None => 1,
        Some(_) if too_short(count, current.code_words) => 4,
        Some(obj) => match visited(obj, &bytes) {
            None => 13,
            Some(bits) => {
                bits.iter().enumerate().for_each(|(i, b)| set_bit(&mut map, i as u32, *b));
                0
            }
        },
    };
    let mut out = vec![number];
    out.extend(map);
    out
}

macro_rules! put { ($out:expr, $($arg:tt)*) => { $out.push(format!($($arg)*)) } }

pub fn write_classes(out: &mut Vec<String>, current: &Image, p: &mut Words, answer: &[u32]) {
    put!(out, "report write: {}", answer[0]);
    let Some(obj) = &current.obj else { return };
    let count = p.one() as usize;
    let map = p.many(count);
    let room = p.one();
    if answer[0] == 0 {
        put!(out, "report write: room {}", if room == answer[1] { "exact" } else { "more" });
    }
    if answer[0] == 10 {
        put!(
            out,
            "report write: short by {}",
            if room + 1 == report(obj, map).len() as u32 { "a byte" } else { "more" }
        );
    }
    if answer[0] == 0 {
        let bytes = report(obj, map);
        let wide = bytes.iter().any(|b| b & 0x80 != 0);
        put!(out, "report write: number of two groups {wide}");
        let runs = bytes.get(2).copied().unwrap_or(0);
        put!(out, "report write: {} runs at first", runs.min(3));
    }
}

/// Why bytes are no report: written again here, apart from the reader, to name what is wrong.
fn fault(obj: &ObjInfo, bytes: &[u8], touching: bool, longer: bool) -> &'static str {
    let mut left = bytes;
    let number = |left: &mut &[u8]| -> Result<u32, &'static str> {
        let end = left.iter().position(|b| b & 0x80 == 0).ok_or("cut inside a number or before one")?;
        let (groups, rest) = left.split_at(end + 1);
        *left = rest;
        if end > 0 && groups[end] == 0 && !longer {
            return Err("a number not in shortest form");
        }
        let big = groups.len() > 5 || groups.len() == 5 && groups[4] > 15;
        if big {
            return Err("a number of 2^32 or more");
        }
        Ok(groups.iter().rev().fold(0, |n, g| n << 7 | (g & 0x7f) as u32))
    };
    let mut judge = || -> Result<(), &'static str> {
        if number(&mut left)? != 1 {
            return Err("version");
        }
        if number(&mut left)? != obj.sections.len() {
            return Err("section count");
        }
        for (_, s) in obj.sections.iter() {
            let code = s.kind == ObjSectionKind::Code;
            let words = if code { s.size / 4 } else { 0 };
            let mut at = 0u64;
            for run in 0..number(&mut left)? {
                if !code {
                    return Err("runs in a section that is no Code");
                }
                let gap = number(&mut left)?;
                let length = number(&mut left)?;
                at += gap as u64 + length as u64;
                if length == 0 {
                    return Err("a run of no words");
                }
                if run > 0 && gap == 0 && !touching {
                    return Err("two runs that touch");
                }
                if at > words {
                    return Err("a run past its section");
                }
            }
        }
        if left.is_empty() { Ok(()) } else { Err("bytes after the end") }
    };
    judge().err().unwrap_or("none")
}

pub fn read_classes(out: &mut Vec<String>, current: &Image, p: &mut Words, answer: &[u32]) {
    put!(out, "report read: {}", answer[0]);
    let Some(obj) = &current.obj else { return };
    let count = p.one() as usize;
    p.many(count);
    let bytes = p.bytes();
    if answer[0] == 13 {
        put!(out, "report read: 13, {}", fault(obj, &bytes, false, false));
        if fault(obj, &bytes, true, false) == "none" {
            put!(out, "report read: 13, by touching runs alone");
        }
        if fault(obj, &bytes, false, true) == "none" {
            put!(out, "report read: 13, by a longer form alone");
        }
    }
    if answer[0] == 0 {
        put!(out, "report read: {}", if count as u32 * 32 > current.code_words { "bits past W" } else { "bits exact" });
        assert!(fault(obj, &bytes, false, false) == "none" || cfg!(feature = "planted"));
    }
}
