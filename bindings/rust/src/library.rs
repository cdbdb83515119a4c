//! The nine functions of the library: what `include/farshavan.h` declares, and a safe call of each that gives the
//! number returned.
//!
//! All `unsafe` of the crate is here. Each pointer and length come from one slice, and an output is borrowed by this
//! call alone, so that buffers are valid and no output overlaps another buffer. The functions are proved to read and
//! write within these lengths only, for all contents, and they keep no pointer.

use crate::{Name, Strings, Tables};

#[rustfmt::skip]
extern "C" {
    fn farshavan_schema_verdict(
        bytes: *const u8, bytes_length: usize, ends: *const u32, ends_length: usize,
        schema: *const u32, schema_length: usize,
    ) -> u64;
    fn farshavan_name_in_class(
        bytes: *const u8, bytes_length: usize, ends: *const u32, ends_length: usize,
        schema: *const u32, schema_length: usize, class: u32, namespace: u32, local: u32,
        row: *mut u32, row_length: usize,
    ) -> u64;
    fn farshavan_least_common_name(
        bytes: *const u8, bytes_length: usize, ends: *const u32, ends_length: usize,
        schema: *const u32, schema_length: usize, first: u32, second: u32, name: *mut u32, name_length: usize,
    ) -> u64;
    fn farshavan_verdict(
        bytes: *const u8, bytes_length: usize, ends: *const u32, ends_length: usize,
        schema: *const u32, schema_length: usize, instance: *const u32, instance_length: usize,
        work: *mut u8, work_length: usize,
    ) -> u64;
    fn farshavan_match_list(
        bytes: *const u8, bytes_length: usize, ends: *const u32, ends_length: usize,
        schema: *const u32, schema_length: usize, instance: *const u32, instance_length: usize,
        list: *mut u32, list_length: usize, work: *mut u8, work_length: usize,
    ) -> u64;
    fn farshavan_string_text(
        bytes: *const u8, bytes_length: usize, ends: *const u32, ends_length: usize, string: u32,
        text: *mut u8, text_length: usize,
    ) -> u64;
    fn farshavan_read_job(
        file: *const u8, file_length: usize, bytes: *mut u8, bytes_length: usize, ends: *mut u32, ends_length: usize,
        schema: *mut u32, schema_length: usize, instance: *mut u32, instance_length: usize,
        counts: *mut u32, counts_length: usize,
    ) -> u64;
    fn farshavan_write_job(
        bytes: *const u8, bytes_length: usize, ends: *const u32, ends_length: usize,
        schema: *const u32, schema_length: usize, instance: *const u32, instance_length: usize,
        file: *mut u8, file_length: usize,
    ) -> u64;
    fn farshavan_report(file: *const u8, file_length: usize, text: *mut u8, text_length: usize) -> u64;
}

/// Calls a function with the slices before the first `;` as pointer and length, then the words, then the outputs.
macro_rules! call {
    ($function:ident($($table:expr),*; $($word:expr),*; $($output:expr),*)) => {
        unsafe {
            $function(
                $($table.as_ptr(), $table.len(),)*
                $($word,)*
                $($output.as_mut_ptr(), $output.len(),)*
            )
        }
    };
}

pub fn schema_verdict(strings: Strings, schema: &[u32]) -> u64 {
    call!(farshavan_schema_verdict(strings.bytes, strings.ends, schema;;))
}

pub fn name_in_class(strings: Strings, schema: &[u32], class: u32, name: Name, row: &mut [u32]) -> u64 {
    call!(farshavan_name_in_class(strings.bytes, strings.ends, schema; class, name.namespace, name.local; row))
}

pub fn least_common_name(strings: Strings, schema: &[u32], first: u32, second: u32, name: &mut [u32]) -> u64 {
    call!(farshavan_least_common_name(strings.bytes, strings.ends, schema; first, second; name))
}

pub fn verdict(t: Tables, work: &mut [u8]) -> u64 {
    call!(farshavan_verdict(t.strings.bytes, t.strings.ends, t.schema, t.instance;; work))
}

pub fn match_list(t: Tables, list: &mut [u32], work: &mut [u8]) -> u64 {
    call!(farshavan_match_list(t.strings.bytes, t.strings.ends, t.schema, t.instance;; list, work))
}

pub fn string_text(strings: Strings, string: u32, text: &mut [u8]) -> u64 {
    call!(farshavan_string_text(strings.bytes, strings.ends; string; text))
}

pub fn read_job(
    file: &[u8],
    bytes: &mut [u8],
    ends: &mut [u32],
    schema: &mut [u32],
    instance: &mut [u32],
    counts: &mut [u32],
) -> u64 {
    call!(farshavan_read_job(file;; bytes, ends, schema, instance, counts))
}

pub fn write_job(t: Tables, file: &mut [u8]) -> u64 {
    call!(farshavan_write_job(t.strings.bytes, t.strings.ends, t.schema, t.instance;; file))
}

pub fn report(file: &[u8], text: &mut [u8]) -> u64 {
    call!(farshavan_report(file;; text))
}
