//! Answers one record after the other (docs/FORMATS.md). The Rust answers; what stands around it is document 01's:
//! the judge of the image, of places and of room.
use std::num::NonZeroU32;

use plants::on;
use ppc750cl::{Argument, GPR, Ins, Opcode};

use crate::{
    analysis::{
        RelocationTarget,
        cfa::SectionAddress,
        disassemble, relocation_target_for, uniq_jump_table_entries,
        vm::{
            GprValue, StepResult, VM, is_load_op, is_loadf_op, is_store_op, is_storef_op, is_update_op,
            section_address_for,
        },
    },
    image::Image,
    obj::*,
    pieces::*,
};

pub const IMAGE: u32 = 1;
pub const DECODE: u32 = 2;
pub const MASK: u32 = 3;
pub const ROTATE: u32 = 4;
pub const BRANCH: u32 = 5;
pub const LOOKUP: u32 = 6;
pub const STEP: u32 = 7;
pub const TABLE: u32 = 8;
pub const SCRIPT: u32 = 9;
pub const WALK: u32 = 10;
pub const WRITE: u32 = 11;
pub const READ: u32 = 12;

#[derive(Clone, Debug)]
pub struct Record {
    pub kind: u32,
    pub payload: Vec<u32>,
}

/// The answer's words; an image becomes the current one.
pub fn answer(current: &mut Image, record: &Record) -> Vec<u32> {
    let mut p = Words::new(&record.payload);
    match record.kind {
        IMAGE => {
            let count = p.one() as usize;
            let words = p.many(count).to_vec();
            *current = Image::new(words, p.bytes());
            vec![current.broken.is_some() as u32]
        }
        DECODE => decode(p.one()),
        MASK => vec![mask(p.one(), p.one())],
        ROTATE => vec![rotate(p.one(), p.one())],
        BRANCH => match Ins::new(p.one()).branch_dest(p.one()) {
            Some(dest) => vec![1, dest],
            None => vec![0, 0],
        },
        LOOKUP => lookup(current, &mut p),
        STEP => step(current, p.place(), p.one(), p.state()),
        TABLE => table(current, &mut p),
        SCRIPT => crate::walk::script(current, &mut p),
        WALK => crate::walk::walk(current, &mut p),
        WRITE => crate::report::write(current, &mut p),
        READ => crate::report::read(current, &mut p),
        kind => panic!("no record has kind {kind}"),
    }
}

/// The number of an op in docs/FORMATS.md.
pub fn op_number(op: Opcode) -> u32 {
    let last = Opcode::Subfc as u32;
    assert!(op as u32 <= last, "the decoder gives no such op");
    op as u32
}

fn decode(word: u32) -> Vec<u32> {
    let ins = Ins::new(word);
    let op = ins.op;
    let class = [is_load_op(op), is_loadf_op(op), is_store_op(op), is_storef_op(op), is_update_op(op)];
    let class = class.iter().enumerate().map(|(i, c)| (*c as u32) << i).sum();
    let mut written = 0;
    for argument in ins.defs() {
        if let Argument::GPR(GPR(reg)) = argument {
            written |= 1 << reg;
        }
    }
    vec![
        op_number(op),
        class,
        written,
        ins.field_rd() as u32,
        ins.field_ra() as u32,
        ins.field_rb() as u32,
        ins.field_mb() as u32,
        ins.field_me() as u32,
        ins.field_simm() as u32,
        ins.field_uimm() as u32,
        ins.field_crfd() as u32,
        ins.field_l() as u32,
        ins.field_spr() as u32,
        ins.field_lk() as u32,
        ins.field_aa() as u32,
    ]
}

/// An image without relocations, for the words by which vm.rs is asked for a mask and a rotation.
fn plain() -> Image {
    let words = vec![0, 0, 1, 0, 0, 0, 0, 4, 0, 0, 0, 4];
    Image::new(words, vec![0; 4])
}

fn constant_after(word: u32, vm: &mut VM) -> u32 {
    let image = plain();
    vm.step(image.obj.as_ref().unwrap(), SectionAddress::new(0, 0), Ins::new(word));
    let GprValue::Constant(c) = vm.gpr[5].value else { panic!("no Constant") };
    c
}

/// rlwinm r5, r3, 0, begin, end on a Constant of ones: `mask_value` is private to vm.rs.
fn mask(begin: u32, end: u32) -> u32 {
    let mut vm = VM::new();
    vm.gpr[3].value = GprValue::Constant(u32::MAX);
    constant_after(21 << 26 | 3 << 21 | 5 << 16 | begin << 6 | end << 1, &mut vm)
}

/// rlwnm r5, r3, r4, 0, 31.
fn rotate(number: u32, amount: u32) -> u32 {
    let mut vm = VM::new();
    vm.gpr[3].value = GprValue::Constant(number);
    vm.gpr[4].value = GprValue::Constant(amount);
    constant_after(23 << 26 | 3 << 21 | 5 << 16 | 4 << 11 | 31 << 1, &mut vm)
}

/// A place is judged in its own section only: 2, then 3.
pub fn judge_place(obj: &ObjInfo, place: SectionAddress) -> u32 {
    match obj.sections.get(place.section) {
        Some(s) if s.kind == ObjSectionKind::Code && s.contains(place.address) => {
            if place.address % 4 != 0 && !on(89) {
                3
            } else {
                0
            }
        }
        _ => {
            if on(90) && place.address % 4 != 0 {
                3
            } else {
                2
            }
        }
    }
}

/// "Visited bits stand for Code words in section order." The place is an aligned code word.
pub fn bit_of(obj: &ObjInfo, place: SectionAddress) -> u32 {
    let before: u64 = obj
        .sections
        .iter()
        .take_while(|(i, _)| *i < place.section)
        .filter(|(_, s)| s.kind == ObjSectionKind::Code || on(23))
        .map(|(_, s)| s.size / 4)
        .sum();
    before as u32 + (place.address - obj.sections[place.section].address as u32) / 4
}

/// `relocation_target_for`, also for a section that is not there: nothing lies in it.
fn relocation(
    obj: &ObjInfo,
    place: SectionAddress,
    wanted: Option<ObjRelocKind>,
) -> anyhow::Result<Option<RelocationTarget>> {
    if obj.sections.get(place.section).is_none() {
        return Ok(None);
    }
    relocation_target_for(obj, place, wanted)
}

fn address_for(obj: &ObjInfo, place: SectionAddress, value: u32) -> Option<RelocationTarget> {
    if obj.sections.get(place.section).is_none() {
        let found = obj.sections.at_address(value).ok()?;
        return Some(RelocationTarget::Address(SectionAddress::new(found.0, value)));
    }
    section_address_for(obj, place, value)
}

fn lookup(current: &Image, p: &mut Words) -> Vec<u32> {
    let Some(obj) = &current.obj else { return vec![1] };
    let mut out = vec![0];
    let put_found = |found: Option<(SectionIndex, &ObjSection)>| match found {
        Some((i, _)) => [1, i],
        None => [0, 0],
    };
    match p.one() {
        1 => out.extend(put_found(obj.sections.holding(p.one()))),
        2 => out.extend(put_found(obj.sections.get_elf_index(p.one()))),
        3 => {
            let place = p.place();
            let wanted = match p.one() {
                0 => None,
                1 => Some(ObjRelocKind::Absolute),
                _ => Some(ObjRelocKind::Other),
            };
            let found = relocation(obj, place, wanted);
            out.push(found.is_err() as u32);
            put_optional_target(&mut out, found.ok().flatten());
        }
        4 => {
            let found = address_for(obj, p.place(), p.one());
            put_optional_target(&mut out, found);
        }
        5 => {
            let place = p.place();
            let found = obj.symbols.kind_at_section_address(place.section, place.address, ObjSymbolKind::Object);
            let size = found.ok().flatten().map_or(0, |(_, y)| if y.size_known { y.size as u32 } else { 0 });
            out.push(size);
        }
        6 => {
            let place = p.place();
            let bytes = match obj.sections.get(place.section) {
                Some(s) if s.contains(place.address) && s.kind != ObjSectionKind::Bss => {
                    s.data_range(place.address, (s.address + s.size) as u32).unwrap()
                }
                _ => &[],
            };
            let (mut first, mut second) = (0u32, 0u32);
            for b in bytes {
                first = first.wrapping_add(*b as u32 + 1);
                second = second.wrapping_add(first);
            }
            let head = pack(&bytes[..bytes.len().min(4)]).first().copied().unwrap_or(0);
            out.extend([bytes.len() as u32, first, second, head]);
        }
        7 => {
            let place = p.place();
            let judged = judge_place(obj, place);
            out.extend([current.code_words, judged, if judged == 0 { bit_of(obj, place) } else { 0 }]);
        }
        8 => {
            let place = p.place();
            // Below the section the Rust's offset wraps and may panic: no word there.
            let section = obj.sections.get(place.section).filter(|s| s.address <= place.address as u64);
            match section.and_then(|s| disassemble(s, place.address)) {
                Some(ins) => out.extend([1, ins.code]),
                None => out.extend([0, 0]),
            }
        }
        which => panic!("no lookup has number {which}"),
    }
    out
}

/// `step` judges 1, 2, 3 and hands the state back.
fn step(current: &Image, place: SectionAddress, word: u32, mut vm: Box<VM>) -> Vec<u32> {
    let refused = match &current.obj {
        None => 1,
        Some(obj) => judge_place(obj, place),
    };
    let mut out = vec![refused];
    if let (0, Some(obj)) = (refused, &current.obj) {
        let result = vm.step(obj, place, Ins::new(word));
        put_result(&mut out, &result);
    }
    put_state(&mut out, &vm);
    out
}

pub fn put_result(out: &mut Vec<u32>, result: &StepResult) {
    match result {
        StepResult::Continue => out.push(0),
        StepResult::LoadStore { address, source, source_reg } => {
            out.push(1);
            put_target(out, *address);
            put_register(out, source);
            out.push(*source_reg as u32);
        }
        StepResult::Illegal => out.push(2),
        StepResult::Jump(target) => {
            out.push(3);
            put_branch_target(out, target);
        }
        StepResult::Branch(branches) => {
            assert!(branches.len() == 2, "a branch list always has two entries");
            out.push(4);
            for b in branches {
                put_branch_target(out, &b.target);
                out.push(b.link as u32);
                put_state(out, &b.vm);
            }
        }
    }
}

/// A single table on a sound image: 7, 8 or 9, or the entries and the size.
pub fn entries(
    obj: &ObjInfo,
    place: SectionAddress,
    size: Option<NonZeroU32>,
    start: SectionAddress,
    end: Option<SectionAddress>,
) -> Result<(Vec<SectionAddress>, u32), u32> {
    // "An address outside a Data or ReadOnly section: no entries, size 0", before 8 is judged. The Rust looks at the
    // section's kind alone.
    match obj.sections.get(place.section) {
        Some(s) if s.contains(place.address) => {}
        _ => return Ok((vec![], 0)),
    }
    match uniq_jump_table_entries(obj, place, size, place, start, end) {
        Ok((entries, size)) => Ok((entries.into_iter().collect(), size)),
        Err(e) if e.cause() == "ragged table" => Err(8),
        Err(e) if e.cause() == NO_SECTION || e.cause().starts_with("Jump table entry at") => Err(9),
        Err(_) => Err(7),
    }
}

fn table(current: &Image, p: &mut Words) -> Vec<u32> {
    let place = p.place();
    let size = NonZeroU32::new(p.one());
    let start = p.place();
    let end = p.optional_place();
    let (room, fill) = (p.one() as usize, p.one());
    let mut buffer = vec![fill; 2 * room];
    let Some(obj) = &current.obj else {
        let mut out = vec![1, 0, 0];
        out.extend(buffer);
        return out;
    };
    let read = entries(obj, place, size, start, end)
        .and_then(|found| if found.0.len() > room - (on(24) && room > 0) as usize { Err(10) } else { Ok(found) });
    let mut out = match &read {
        Ok((entries, size)) => vec![0, entries.len() as u32, *size],
        Err(number) => vec![*number, 0, 0],
    };
    if !(on(25) && read.as_ref().is_err_and(|n| *n == 9)) {
        buffer.fill(0);
    }
    for (i, e) in read.iter().flat_map(|r| &r.0).enumerate() {
        buffer[2 * i] = e.section;
        buffer[2 * i + 1] = e.address;
    }
    out.extend(buffer);
    out
}
