//! The functions by C's calling convention, so that both libraries are called in the same way.

macro_rules! pointer {
    (read $element:ty) => { *const $element };
    (write $element:ty) => { *mut $element };
}

macro_rules! slice {
    (read $slice:ident $length:ident) => {
        std::slice::from_raw_parts($slice, $length)
    };
    (write $slice:ident $length:ident) => {
        std::slice::from_raw_parts_mut($slice, $length)
    };
}

/// A function's call: for a caller, or without.
macro_rules! call {
    ([] $name:ident $($argument:ident)*) => { crate::$name($($argument),*) };
    ([$caller:ident] $name:ident $($argument:ident)*) => {
        crate::$name(crate::Caller::$caller, $($argument),*)
    };
}

/// The caller in brackets, or none. For each function: its numbers, then its slices as pointers with
/// lengths, then the values that it hands out as a pointer, in the header's order.
macro_rules! exports {
    ($caller:tt $(
        $(#[$doc:meta])*
        $name:ident(
            $($number:ident: $type:ty),*;
            $($slice:ident $length:ident: $kind:tt $element:ty),*
            $(; $out:ident: $values:ty)?
        );
    )*) => {
        $(
            $(#[$doc])*
            ///
            /// # Safety
            ///
            /// Every pointer leads to as many elements as the length after it says, or to what its
            /// type says, and what is written to overlaps nothing else of the call.
            #[allow(clippy::too_many_arguments)]
            pub unsafe extern "C" fn $name(
                $($number: $type,)*
                $($slice: pointer!($kind $element), $length: usize,)*
                $($out: *mut $values,)?
            ) -> u64 {
                // SAFETY: by what is asked of the caller.
                $(let $slice = unsafe { slice!($kind $slice $length) };)*
                // SAFETY: as above.
                $(let $out = unsafe { &mut *$out };)?
                call!($caller $name $($number)* $($slice)* $($out)?)
            }
        )*
    };
}

/// The same functions for the bench, and in a module for the lesson page.
macro_rules! callers {
    ($($functions:tt)*) => {
        exports! { [Bench] $($functions)* }

        /// The lesson page's functions.
        pub mod page {
            exports! { [Page] $($functions)* }
        }
    };
}

exports! {
    []
    /// Read a record.
    read_record(; bytes bytes_length: read u8; values: [i64; 11]);
    /// Write a record.
    write_record(identifier: u16, mass: u64, x: u64, y: u64, vx: i64, vy: i64, bxx: i64, bxy: i64, byx: i64, byy: i64, marks: u8; bytes bytes_length: write u8);
    /// Weights.
    weights(q: i64; ; values: [i64; 3]);
    /// Write a header.
    write_header(nx: usize, ny: usize, gx: i64, gy: i64, count: usize, steps: usize, kind: usize, width: usize, drag: usize; bytes bytes_length: write u8);
    /// Return.
    return_to(; store store_length: read u8, name name_length: read u8, buffer buffer_length: write u8; length: u64);
    /// Forget.
    forget(; store store_length: write u8, name name_length: read u8);
}

callers! {
    /// Check a set.
    check_set(nx: usize, ny: usize; records records_length: read u8; count: u64);
    /// Totals.
    totals(nx: usize, ny: usize; records records_length: read u8; values: [i64; 6]);
    /// Scatter.
    scatter(nx: usize, ny: usize; records records_length: read u8, mass mass_length: write u64, px px_length: write i64, py py_length: write i64);
    /// Adding scatter.
    adding_scatter(nx: usize, ny: usize; records records_length: read u8, mass mass_length: write u64, px px_length: write i64, py py_length: write i64);
    /// Update.
    update(nx: usize, ny: usize, gx: i64, gy: i64, kind: usize, width: usize, drag: usize; mass mass_length: read u64, px px_length: write i64, py py_length: write i64);
    /// Gather.
    gather(nx: usize, ny: usize; records records_length: write u8, ux ux_length: read i64, uy uy_length: read i64);
    /// Step.
    step(nx: usize, ny: usize, gx: i64, gy: i64, kind: usize, width: usize, drag: usize; records records_length: write u8, mass mass_length: write u64, px px_length: write i64, py py_length: write i64);
    /// Run.
    run(nx: usize, ny: usize, gx: i64, gy: i64, kind: usize, width: usize, drag: usize, steps: usize; records records_length: write u8, mass mass_length: write u64, px px_length: write i64, py py_length: write i64; completed: u64);
    /// Read a file.
    read_file(; bytes bytes_length: read u8; values: [i64; 9]);
    /// Keep.
    keep(; store store_length: write u8, name name_length: read u8, file file_length: read u8);
}
