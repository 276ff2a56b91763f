//! What bench/ counts: vm.rs over recorded words, and executor.rs in whole walks and at a depth.
use std::fs;

use ppc750cl::Ins;

use crate::{
    analysis::{
        cfa::SectionAddress,
        executor::{ExecCbResult, Executor},
        vm::{Cr, Gpr, GprValue, VM},
    },
    answer::{Record, WALK, answer},
    image::Image,
    pieces::Words,
    walk::run_walk,
};

const DEPTH: u32 = 3000;

/// The file's first word is how often its other words are stepped, one after the other, at 4096 and on.
pub fn step(path: &str, decode: bool) {
    let bytes = fs::read(path).unwrap();
    let words: Vec<u32> = bytes.chunks_exact(4).map(|b| u32::from_be_bytes(b.try_into().unwrap())).collect();
    let (turns, words) = (words[0], &words[1..]);
    let size = words.len() as u32 * 4;
    let image = Image::new(vec![0, 0, 1, 0, 0, 0, 4096, size, 0, 0, 0, size], bytes[4..].to_vec());
    let obj = image.obj.as_ref().unwrap();
    let decoded: Vec<Ins> = words.iter().map(|w| Ins::new(*w)).collect();
    let mut known = 0;
    for _ in 0..turns {
        let mut vm = VM::new();
        let mut at = SectionAddress { section: 0, address: 4096 };
        for (word, ins) in words.iter().zip(&decoded) {
            let ins = if decode { Ins::new(std::hint::black_box(*word)) } else { *ins };
            std::hint::black_box(vm.step(obj, at, ins));
            at.address += 4;
        }
        known += matches!(vm.gpr[3].value, crate::analysis::vm::GprValue::Constant(_)) as u32;
    }
    println!("{known}");
}

/// The file's first word is how often its walk is done; an image and a walk of it follow (docs/FORMATS.md, kinds 1 and 10).
pub fn walk(turns: u32, records: &[Record]) -> Vec<u32> {
    let mut current = Image::default();
    let mut out = Vec::new();
    for r in records {
        out = if r.kind == WALK {
            run_walk(&current, &mut Words::new(&r.payload), turns, false).0
        } else {
            answer(&mut current, r)
        };
    }
    out
}

/// A state with a few things known, as in crates/stack_bench.
fn start(x: u32) -> Box<VM> {
    let mut vm = VM::new();
    vm.gpr[2].value = GprValue::Constant(x);
    vm.gpr[3] = Gpr {
        value: GprValue::Range { min: 0, max: x, step: 4 },
        hi_addr: Some(SectionAddress::new(1, x)),
        lo_addr: None,
    };
    vm.gpr[13].value = GprValue::ComparisonResult(3);
    vm.cr[3] = Cr { left: GprValue::Unknown, right: GprValue::Constant(x), signed: false };
    vm
}

/// The calls of crates/stack_bench, by the same letters.
pub fn stack(mode: u8) {
    let image = Image::new(vec![0, 0, 1, 0, 0, 0, 0, 4, 0, 0, 0, 4], vec![0; 4]);
    let mut executor = Executor::new(image.obj.as_ref().unwrap());
    let vm = start(mode as u32);
    for i in 0..if mode == b'a' { 0 } else { DEPTH } {
        let address = if mode == b'c' { 4_000_000 - 4 * i } else { 4 * i };
        executor.push(SectionAddress::new(3, address), vm.clone_all(), true);
    }
    for _ in 0..if mode == b'd' { DEPTH } else { 0 } {
        let top = executor.vm_stack.pop().unwrap();
        executor.push(top.address, top.vm, true);
    }
    let mut sum = 0u32;
    while let (b'd' | b'e', Some(top)) = (mode, executor.vm_stack.pop()) {
        sum = sum.wrapping_add(top.address.address);
    }
    println!("{sum}");
}

/// The calls of crates/executor_bench, by the same letters: `next` with its reply is one run whose callback ends it.
pub fn executor(mode: u8) {
    let size = 4 * DEPTH;
    let image = Image::new(vec![0, 0, 1, 0, 0, 0, 4096, size, 0, 0, 0, size], vec![96; size as usize]);
    let obj = image.obj.as_ref().unwrap();
    let mut executor = Executor::new(obj);
    let mut vm = VM::new();
    vm.gpr[3].value = GprValue::Constant(7);
    for i in 0..DEPTH {
        executor.push(SectionAddress::new(0, 4096 + 4 * i), vm.clone_all(), true);
    }
    let mut ended = None;
    if mode != b'a' {
        ended = executor.run(obj, |data| Ok(ExecCbResult::End(data.ins_addr.address))).unwrap();
    }
    println!("{ended:?}");
}
