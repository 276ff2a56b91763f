//! The pieces of docs/FORMATS.md: places, targets, values, states, to and from words.
use std::num::NonZeroU32;

use crate::analysis::{
    RelocationTarget,
    cfa::SectionAddress,
    vm::{BranchTarget, Cr, Gpr, GprValue, VM},
};

/// Reads the words of a payload one after the other.
pub struct Words<'a> {
    pub left: &'a [u32],
}

impl<'a> Words<'a> {
    pub fn new(left: &'a [u32]) -> Self {
        Self { left }
    }

    pub fn one(&mut self) -> u32 {
        let (first, rest) = self.left.split_first().expect("a payload ends early");
        self.left = rest;
        *first
    }

    pub fn many(&mut self, count: usize) -> &'a [u32] {
        assert!(count <= self.left.len(), "a payload ends early");
        let (first, rest) = self.left.split_at(count);
        self.left = rest;
        first
    }

    pub fn bytes(&mut self) -> Vec<u8> {
        let count = self.one() as usize;
        unpack(self.many(count.div_ceil(4)), count)
    }

    pub fn place(&mut self) -> SectionAddress {
        SectionAddress { section: self.one(), address: self.one() }
    }

    pub fn optional_place(&mut self) -> Option<SectionAddress> {
        let there = self.one() == 1;
        let place = self.place();
        there.then_some(place)
    }

    pub fn target(&mut self) -> RelocationTarget {
        match self.optional_place() {
            Some(place) => RelocationTarget::Address(place),
            None => RelocationTarget::External,
        }
    }

    pub fn value(&mut self) -> GprValue {
        let mut w = Words::new(self.many(5));
        match w.one() {
            0 => GprValue::Unknown,
            1 => GprValue::Constant(w.one()),
            2 => GprValue::Address(w.target()),
            3 => GprValue::ComparisonResult(w.one() as u8),
            4 => GprValue::Range { min: w.one(), max: w.one(), step: w.one() },
            5 => GprValue::LoadIndexed { address: w.target(), max_offset: NonZeroU32::new(w.one()) },
            tag => panic!("no value has tag {tag}"),
        }
    }

    pub fn state(&mut self) -> Box<VM> {
        let mut vm = VM::new();
        for _ in 0..self.one() {
            match self.one() as usize {
                i @ 0..=31 => {
                    vm.gpr[i] =
                        Gpr { value: self.value(), hi_addr: self.optional_place(), lo_addr: self.optional_place() }
                }
                i @ 32..=39 => vm.cr[i - 32] = Cr { left: self.value(), right: self.value(), signed: self.one() == 1 },
                40 => vm.lr = self.value(),
                41 => vm.ctr = self.value(),
                i => panic!("no state item has index {i}"),
            }
        }
        vm
    }
}

pub fn pack(bytes: &[u8]) -> Vec<u32> {
    bytes.chunks(4).map(|c| c.iter().enumerate().map(|(i, b)| (*b as u32) << (24 - 8 * i)).sum()).collect()
}

pub fn unpack(words: &[u32], count: usize) -> Vec<u8> {
    let mut out: Vec<u8> = words.iter().flat_map(|w| w.to_be_bytes()).collect();
    out.truncate(count);
    out
}

pub fn put_optional_place(out: &mut Vec<u32>, place: Option<SectionAddress>) {
    out.extend(place.map_or([0; 3], |p| [1, p.section, p.address]));
}

pub fn put_target(out: &mut Vec<u32>, target: RelocationTarget) {
    out.extend(match target {
        RelocationTarget::External => [0; 3],
        RelocationTarget::Address(p) => [1, p.section, p.address],
    });
}

pub fn put_optional_target(out: &mut Vec<u32>, target: Option<RelocationTarget>) {
    out.extend(match target {
        None => [0; 3],
        Some(RelocationTarget::External) => [1, 0, 0],
        Some(RelocationTarget::Address(p)) => [2, p.section, p.address],
    });
}

pub fn put_value(out: &mut Vec<u32>, value: GprValue) {
    let end = out.len() + 5;
    match value {
        GprValue::Unknown => out.push(0),
        GprValue::Constant(c) => out.extend([1, c]),
        GprValue::Address(t) => {
            out.push(2);
            put_target(out, t);
        }
        GprValue::ComparisonResult(k) => out.extend([3, k as u32]),
        GprValue::Range { min, max, step } => out.extend([4, min, max, step]),
        GprValue::LoadIndexed { address, max_offset } => {
            out.push(5);
            put_target(out, address);
            out.push(max_offset.map_or(0, |n| n.get()));
        }
    }
    out.resize(end, 0);
}

pub fn put_register(out: &mut Vec<u32>, gpr: &Gpr) {
    put_value(out, gpr.value);
    put_optional_place(out, gpr.hi_addr);
    put_optional_place(out, gpr.lo_addr);
}

pub fn put_state(out: &mut Vec<u32>, vm: &VM) {
    let at = out.len();
    out.push(0);
    let item = |out: &mut Vec<u32>, index: usize| {
        out[at] += 1;
        out.push(index as u32);
    };
    for (i, gpr) in vm.gpr.iter().enumerate().filter(|(_, g)| **g != Gpr::default()) {
        item(out, i);
        put_register(out, gpr);
    }
    for (i, cr) in vm.cr.iter().enumerate().filter(|(_, c)| **c != Cr::default()) {
        item(out, 32 + i);
        put_value(out, cr.left);
        put_value(out, cr.right);
        out.push(cr.signed as u32);
    }
    for (i, value) in [vm.lr, vm.ctr].into_iter().enumerate().filter(|(_, v)| *v != GprValue::Unknown) {
        item(out, 40 + i);
        put_value(out, value);
    }
}

pub fn put_branch_target(out: &mut Vec<u32>, target: &BranchTarget) {
    match target {
        BranchTarget::Unknown => out.extend([0; 5]),
        BranchTarget::Return => out.extend([1, 0, 0, 0, 0]),
        BranchTarget::Address(t) => {
            out.push(2);
            put_target(out, *t);
            out.push(0);
        }
        BranchTarget::JumpTable { address, size } => {
            out.push(3);
            put_target(out, *address);
            out.push(size.map_or(0, |n| n.get()));
        }
    }
}
