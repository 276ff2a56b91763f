//! The functions of include/gelruptai.h, as they stand there.
extern "C" {
    pub fn gelruptai_check_image(image: *const u32, image_length: usize, data_length: usize) -> u32;

    pub fn gelruptai_code_words(image: *const u32, image_length: usize, data: *const u8, data_length: usize) -> usize;

    pub fn gelruptai_stack_words(states: u32) -> usize;

    pub fn gelruptai_walk(
        image: *const u32,
        image_length: usize,
        data: *const u8,
        data_length: usize,
        starts: *const u64,
        starts_length: usize,
        given: *const [u32; 9],
        map: *mut u32,
        map_length: usize,
        stack: *mut u32,
        stack_length: usize,
        entries: *mut [u64; 1024],
        counts: *mut [u64; 5],
    ) -> u32;

    pub fn gelruptai_table(
        image: *const u32,
        image_length: usize,
        data: *const u8,
        data_length: usize,
        section: u32,
        address: u32,
        size: u32,
        given: *const [u32; 9],
        entries: *mut u64,
        entries_length: usize,
        counts: *mut [u64; 2],
    ) -> u32;

    pub fn gelruptai_write_report(
        image: *const u32,
        image_length: usize,
        data: *const u8,
        data_length: usize,
        map: *const u32,
        map_length: usize,
        out: *mut u8,
        out_length: usize,
        written: *mut usize,
    ) -> u32;

    pub fn gelruptai_read_report(
        image: *const u32,
        image_length: usize,
        data: *const u8,
        data_length: usize,
        report: *const u8,
        report_length: usize,
        map: *mut u32,
        map_length: usize,
    ) -> u32;

    pub fn gelruptai_read_file(
        file: *const u8,
        file_length: usize,
        image: *mut u32,
        image_length: usize,
        starts: *mut u64,
        starts_length: usize,
        given: *mut [u32; 9],
        counts: *mut [u64; 4],
    ) -> u32;
}
