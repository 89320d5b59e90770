//! The functions of liboddrafisk.a, as bindings/c/oddrafisk.h declares them.

extern "C" {
    pub fn oddrafisk_check(
        mode: u32,
        bytes: *const u8,
        bytes_count: usize,
        answer: *mut i64,
    ) -> u32;

    pub fn oddrafisk_read(
        mode: u32,
        bytes: *const u8,
        bytes_count: usize,
        records: *mut i64,
        record_numbers: usize,
        headers: *mut i64,
        header_numbers: usize,
        answer: *mut i64,
    ) -> u32;

    pub fn oddrafisk_measure(
        mode: u32,
        batch: *const i64,
        codec: i64,
        records: *const i64,
        record_numbers: usize,
        headers: *const i64,
        header_numbers: usize,
        source: *const u8,
        source_count: usize,
        answer: *mut i64,
    ) -> u32;

    pub fn oddrafisk_write(
        mode: u32,
        batch: *const i64,
        codec: i64,
        records: *const i64,
        record_numbers: usize,
        headers: *const i64,
        header_numbers: usize,
        source: *const u8,
        source_count: usize,
        output: *mut u8,
        output_count: usize,
        answer: *mut i64,
    ) -> u32;

    pub fn oddrafisk_is_canonical(mode: u32, bytes: *const u8, bytes_count: usize) -> u32;

    pub fn oddrafisk_convert(
        bytes: *const u8,
        bytes_count: usize,
        output: *mut u8,
        output_count: usize,
        answer: *mut i64,
    ) -> u32;

    pub fn oddrafisk_record_time(
        timestamp_type: i64,
        first_timestamp: i64,
        max_timestamp: i64,
        delta: i64,
        answer: *mut i64,
    ) -> u32;

    pub fn oddrafisk_crc32c(bytes: *const u8, bytes_count: usize) -> u32;

    pub fn oddrafisk_version() -> u32;
}
