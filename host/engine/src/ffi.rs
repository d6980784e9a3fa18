//! The static library's functions as they are: `include/gondwize.h` in Rust.
//!
//! Each `&[T]` of the engine passes as a pointer and a length, each array and single value as a
//! pointer. [`crate::library`] calls these with slices.
//!
//! # Safety
//!
//! Every pointer is aligned, not null, and leads to as many initialised elements as the length after
//! it says, or to what its type says. What is written to overlaps nothing else of the call.

macro_rules! function {
    ($name:ident($($parameter:ident: $type:ty),* $(,)?)) => {
        #[allow(missing_docs)]
        unsafe extern "C" {
            pub fn $name($($parameter: $type),*) -> u64;
        }
    };
}

/// Declares each function and, behind a comma, the lesson page's with the same parameters.
macro_rules! functions {
    ($(fn $name:ident $parameters:tt $(, $page:ident)?;)*) => {
        $(
            function! { $name $parameters }
            $(function! { $page $parameters })?
        )*
    };
}

functions! {
    fn gondwize_read_record(bytes: *const u8, bytes_length: usize, values: *mut [i64; 11]);

    fn gondwize_write_record(
        identifier: u16,
        mass: u64,
        x: u64,
        y: u64,
        vx: i64,
        vy: i64,
        bxx: i64,
        bxy: i64,
        byx: i64,
        byy: i64,
        marks: u8,
        bytes: *mut u8,
        bytes_length: usize,
    );

    fn gondwize_check_set(
        nx: usize,
        ny: usize,
        records: *const u8,
        records_length: usize,
        count: *mut u64,
    ), gondwize_page_check_set;

    fn gondwize_totals(
        nx: usize,
        ny: usize,
        records: *const u8,
        records_length: usize,
        values: *mut [i64; 6],
    ), gondwize_page_totals;

    fn gondwize_weights(q: i64, values: *mut [i64; 3]);

    fn gondwize_scatter(
        nx: usize,
        ny: usize,
        records: *const u8,
        records_length: usize,
        mass: *mut u64,
        mass_length: usize,
        px: *mut i64,
        px_length: usize,
        py: *mut i64,
        py_length: usize,
    ), gondwize_page_scatter;

    fn gondwize_adding_scatter(
        nx: usize,
        ny: usize,
        records: *const u8,
        records_length: usize,
        mass: *mut u64,
        mass_length: usize,
        px: *mut i64,
        px_length: usize,
        py: *mut i64,
        py_length: usize,
    ), gondwize_page_adding_scatter;

    fn gondwize_update(
        nx: usize,
        ny: usize,
        gx: i64,
        gy: i64,
        kind: usize,
        width: usize,
        drag: usize,
        mass: *const u64,
        mass_length: usize,
        px: *mut i64,
        px_length: usize,
        py: *mut i64,
        py_length: usize,
    ), gondwize_page_update;

    fn gondwize_gather(
        nx: usize,
        ny: usize,
        records: *mut u8,
        records_length: usize,
        ux: *const i64,
        ux_length: usize,
        uy: *const i64,
        uy_length: usize,
    ), gondwize_page_gather;

    fn gondwize_step(
        nx: usize,
        ny: usize,
        gx: i64,
        gy: i64,
        kind: usize,
        width: usize,
        drag: usize,
        records: *mut u8,
        records_length: usize,
        mass: *mut u64,
        mass_length: usize,
        px: *mut i64,
        px_length: usize,
        py: *mut i64,
        py_length: usize,
    ), gondwize_page_step;

    fn gondwize_run(
        nx: usize,
        ny: usize,
        gx: i64,
        gy: i64,
        kind: usize,
        width: usize,
        drag: usize,
        steps: usize,
        records: *mut u8,
        records_length: usize,
        mass: *mut u64,
        mass_length: usize,
        px: *mut i64,
        px_length: usize,
        py: *mut i64,
        py_length: usize,
        completed: *mut u64,
    ), gondwize_page_run;

    fn gondwize_read_file(
        bytes: *const u8,
        bytes_length: usize,
        values: *mut [i64; 9],
    ), gondwize_page_read_file;

    fn gondwize_write_header(
        nx: usize,
        ny: usize,
        gx: i64,
        gy: i64,
        count: usize,
        steps: usize,
        kind: usize,
        width: usize,
        drag: usize,
        bytes: *mut u8,
        bytes_length: usize,
    );

    fn gondwize_keep(
        store: *mut u8,
        store_length: usize,
        name: *const u8,
        name_length: usize,
        file: *const u8,
        file_length: usize,
    ), gondwize_page_keep;

    fn gondwize_return(
        store: *const u8,
        store_length: usize,
        name: *const u8,
        name_length: usize,
        buffer: *mut u8,
        buffer_length: usize,
        length: *mut u64,
    );

    fn gondwize_forget(store: *mut u8, store_length: usize, name: *const u8, name_length: usize);
}
