//! The library's functions over slices: all the unsafe code there is.
//!
//! Each call is sound by the same reason: a slice's pointer is not null, aligned and good for its length; arrays have the length that
//! the header says; a `&mut` overlaps nothing else that is lent, and everything lent is initialised. The library's contracts require
//! nothing more, whatever the contents and lengths.
use crate::{ffi, Place};

pub fn check_image(words: &[u32], data_length: usize) -> u32 {
    unsafe { ffi::gelruptai_check_image(words.as_ptr(), words.len(), data_length) }
}

pub fn code_words(words: &[u32], data: &[u8]) -> usize {
    unsafe { ffi::gelruptai_code_words(words.as_ptr(), words.len(), data.as_ptr(), data.len()) }
}

pub fn stack_words(states: u32) -> usize {
    unsafe { ffi::gelruptai_stack_words(states) }
}

pub fn walk(
    words: &[u32],
    data: &[u8],
    starts: &[u64],
    given: &[u32; 9],
    map: &mut [u32],
    stack: &mut [u32],
    entries: &mut [u64; 1024],
) -> (u32, [u64; 5]) {
    let mut counts = [0; 5];
    let answer = unsafe {
        ffi::gelruptai_walk(
            words.as_ptr(),
            words.len(),
            data.as_ptr(),
            data.len(),
            starts.as_ptr(),
            starts.len(),
            given,
            map.as_mut_ptr(),
            map.len(),
            stack.as_mut_ptr(),
            stack.len(),
            entries,
            &mut counts,
        )
    };
    (answer, counts)
}

pub fn table(
    words: &[u32],
    data: &[u8],
    at: Place,
    size: u32,
    given: &[u32; 9],
    entries: &mut [u64],
) -> (u32, [u64; 2]) {
    let mut counts = [0; 2];
    let answer = unsafe {
        ffi::gelruptai_table(
            words.as_ptr(),
            words.len(),
            data.as_ptr(),
            data.len(),
            at.section,
            at.address,
            size,
            given,
            entries.as_mut_ptr(),
            entries.len(),
            &mut counts,
        )
    };
    (answer, counts)
}

pub fn write_report(words: &[u32], data: &[u8], map: &[u32], out: &mut [u8]) -> (u32, usize) {
    let mut written = 0;
    let answer = unsafe {
        ffi::gelruptai_write_report(
            words.as_ptr(),
            words.len(),
            data.as_ptr(),
            data.len(),
            map.as_ptr(),
            map.len(),
            out.as_mut_ptr(),
            out.len(),
            &mut written,
        )
    };
    (answer, written)
}

pub fn read_report(words: &[u32], data: &[u8], report: &[u8], map: &mut [u32]) -> u32 {
    unsafe {
        ffi::gelruptai_read_report(
            words.as_ptr(),
            words.len(),
            data.as_ptr(),
            data.len(),
            report.as_ptr(),
            report.len(),
            map.as_mut_ptr(),
            map.len(),
        )
    }
}

pub fn read_file(file: &[u8], words: &mut [u32], starts: &mut [u64], given: &mut [u32; 9]) -> (u32, [u64; 4]) {
    let mut counts = [0; 4];
    let answer = unsafe {
        ffi::gelruptai_read_file(
            file.as_ptr(),
            file.len(),
            words.as_mut_ptr(),
            words.len(),
            starts.as_mut_ptr(),
            starts.len(),
            given,
            &mut counts,
        )
    };
    (answer, counts)
}
