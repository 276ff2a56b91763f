//! Document 01's own cases, C1 to C13, asked of the oracle: `cargo test --release`.
use std::num::NonZeroU32;

use ppc750cl::Ins;

use crate::{
    analysis::{
        RelocationTarget,
        cfa::SectionAddress,
        vm::{BranchTarget, GprValue, StepResult, VM},
    },
    answer::{MASK, Record, answer},
    image::Image,
    report::report,
};

/// Code at 800ED000 to 800F4000, ReadOnly at 80520E00; all zero.
fn image() -> Image {
    let words = [[0, 0, 2, 0, 0, 0], [0x800e_d000, 0x7000, 0, 1, 0, 0x7000], [0x8052_0e00, 0x100, 2, 2, 0, 0x100]];
    let image = Image::new(words.concat(), vec![0; 0x7000]);
    assert_eq!(image.broken, None);
    image
}

fn step(vm: &mut VM, address: u32, word: u32) -> StepResult {
    vm.step(image().obj.as_ref().unwrap(), SectionAddress::new(0, address), Ins::new(word))
}

fn range(min: u32, max: u32, step: u32) -> GprValue {
    GprValue::Range { min, max, step }
}

fn mask(begin: u32, end: u32) -> Vec<u32> {
    answer(&mut Image::default(), &Record { kind: MASK, payload: vec![begin, end] })
}

#[test]
fn c1_to_c5_a_table_jump() {
    let (mut vm, at) = (VM::new(), 0x800e_d000);
    step(&mut vm, at, 0x3cc0_8052);
    assert_eq!(vm.gpr[6].value, GprValue::Constant(0x8052_0000));
    step(&mut vm, at, 0x38c6_0e18);
    assert_eq!(vm.gpr[6].value, GprValue::Constant(0x8052_0e18));
    step(&mut vm, at, 0x5500_66fa);
    assert_eq!(vm.gpr[0].value, range(0, 28, 4096));
    step(&mut vm, at, 0x7d86_002e);
    let address = RelocationTarget::Address(SectionAddress::new(1, 0x8052_0e18));
    assert_eq!(vm.gpr[12].value, GprValue::LoadIndexed { address, max_offset: NonZeroU32::new(28) });
    step(&mut vm, at, 0x7d89_03a6);
    let jump = step(&mut vm, at, 0x4e80_0420);
    assert_eq!(jump, StepResult::Jump(BranchTarget::JumpTable { address, size: NonZeroU32::new(32) }));
}

#[test]
fn c6_c7_c8_ranges() {
    let mut vm = VM::new();
    step(&mut vm, 0x800e_d000, 0x5460_0e7a);
    assert_eq!(vm.gpr[0].value, range(0, 124, 2));

    let mut vm = VM::new();
    step(&mut vm, 0x800e_d458, 0x2800_0127);
    let StepResult::Branch(mut two) = step(&mut vm, 0x800e_d45c, 0x4181_60bc) else { panic!() };
    let to = |b: u32| BranchTarget::Address(RelocationTarget::Address(SectionAddress::new(0, b)));
    assert_eq!((&two[0].target, two[0].vm.gpr[0].value), (&to(0x800e_d460), range(0, 295, 1)));
    assert_eq!((&two[1].target, two[1].vm.gpr[0].value), (&to(0x800f_3518), range(296, u32::MAX, 1)));
    step(&mut two[0].vm, 0x800e_d460, 0x5400_103a);
    assert_eq!(two[0].vm.gpr[0].value, range(0, 1180, 4));
}

#[test]
fn c9_to_c12() {
    assert_eq!(mask(5, 4), [u32::MAX]);
    assert_eq!(mask(31, 0), [0x8000_0001]);
    // cmplwi r3, 0; blt: taken, 0 to FFFFFFFF
    let mut vm = VM::new();
    step(&mut vm, 0x800e_d000, 0x2803_0000);
    let StepResult::Branch(two) = step(&mut vm, 0x800e_d004, 0x4180_0008) else { panic!() };
    assert_eq!(two[1].vm.gpr[3].value, range(0, u32::MAX, 1));
    // subfic r4, r3, -1 of 5
    let mut vm = VM::new();
    vm.gpr[3].value = GprValue::Constant(5);
    step(&mut vm, 0x800e_d000, 0x2083_ffff);
    assert_eq!(vm.gpr[4].value, GprValue::Constant(0xffff_fffa));
}

#[test]
fn c13_the_report() {
    let image = Image::new(vec![0, 0, 1, 0, 0, 0, 0x100, 32, 0, 1, 0, 32], vec![0; 32]);
    assert_eq!(report(image.obj.as_ref().unwrap(), &[0b10_0111]), [1, 1, 2, 0, 3, 2, 1]);
}
