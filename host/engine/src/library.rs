//! The calls of `include/gondwize.h` on slices, with its numbers as answers. A refused call leaves the
//! values that it hands out as they were, but for the completed steps of a run.
//!
//! The safe functions of this crate call these. A [`Library`] can be another one with the same calls;
//! only unsafe code can make one:
//!
//! ```compile_fail,E0133
//! use engine::library::{Functions, Library};
//!
//! fn made(functions: Functions) -> Library {
//!     Library::new(functions)
//! }
//! ```

use crate::{ffi, GridBuffers, Header, Particle, Settings, Size};

type Bytes = *const u8;
type BytesOut = *mut u8;
type Numbers = *const i64;
type NumbersOut = *mut i64;
type Masses = *const u64;
type MassesOut = *mut u64;
type Scatter = unsafe extern "C" fn(
    usize,
    usize,
    Bytes,
    usize,
    MassesOut,
    usize,
    NumbersOut,
    usize,
    NumbersOut,
    usize,
) -> u64;

/// The functions of a library, each with the name of the one of [`ffi`] that it stands for.
#[derive(Clone, Copy)]
#[allow(missing_docs, clippy::type_complexity)]
pub struct Functions {
    pub read_record: unsafe extern "C" fn(Bytes, usize, *mut [i64; 11]) -> u64,
    pub write_record: unsafe extern "C" fn(
        u16,
        u64,
        u64,
        u64,
        i64,
        i64,
        i64,
        i64,
        i64,
        i64,
        u8,
        BytesOut,
        usize,
    ) -> u64,
    pub check_set: unsafe extern "C" fn(usize, usize, Bytes, usize, *mut u64) -> u64,
    pub totals: unsafe extern "C" fn(usize, usize, Bytes, usize, *mut [i64; 6]) -> u64,
    pub weights: unsafe extern "C" fn(i64, *mut [i64; 3]) -> u64,
    pub scatter: Scatter,
    pub adding_scatter: Scatter,
    pub update: unsafe extern "C" fn(
        usize,
        usize,
        i64,
        i64,
        usize,
        usize,
        usize,
        Masses,
        usize,
        NumbersOut,
        usize,
        NumbersOut,
        usize,
    ) -> u64,
    pub gather:
        unsafe extern "C" fn(usize, usize, BytesOut, usize, Numbers, usize, Numbers, usize) -> u64,
    pub step: unsafe extern "C" fn(
        usize,
        usize,
        i64,
        i64,
        usize,
        usize,
        usize,
        BytesOut,
        usize,
        MassesOut,
        usize,
        NumbersOut,
        usize,
        NumbersOut,
        usize,
    ) -> u64,
    pub run: unsafe extern "C" fn(
        usize,
        usize,
        i64,
        i64,
        usize,
        usize,
        usize,
        usize,
        BytesOut,
        usize,
        MassesOut,
        usize,
        NumbersOut,
        usize,
        NumbersOut,
        usize,
        *mut u64,
    ) -> u64,
    pub read_file: unsafe extern "C" fn(Bytes, usize, *mut [i64; 9]) -> u64,
    pub write_header: unsafe extern "C" fn(
        usize,
        usize,
        i64,
        i64,
        usize,
        usize,
        usize,
        usize,
        usize,
        BytesOut,
        usize,
    ) -> u64,
    pub keep: unsafe extern "C" fn(BytesOut, usize, Bytes, usize, Bytes, usize) -> u64,
    pub return_to:
        unsafe extern "C" fn(Bytes, usize, Bytes, usize, BytesOut, usize, *mut u64) -> u64,
    pub forget: unsafe extern "C" fn(BytesOut, usize, Bytes, usize) -> u64,
}

/// A library whose functions may be called on any slices.
#[derive(Clone, Copy)]
pub struct Library {
    functions: Functions,
}

/// The bench's functions of the static library.
const BENCH_FUNCTIONS: Functions = Functions {
    read_record: ffi::gondwize_read_record,
    write_record: ffi::gondwize_write_record,
    check_set: ffi::gondwize_check_set,
    totals: ffi::gondwize_totals,
    weights: ffi::gondwize_weights,
    scatter: ffi::gondwize_scatter,
    adding_scatter: ffi::gondwize_adding_scatter,
    update: ffi::gondwize_update,
    gather: ffi::gondwize_gather,
    step: ffi::gondwize_step,
    run: ffi::gondwize_run,
    read_file: ffi::gondwize_read_file,
    write_header: ffi::gondwize_write_header,
    keep: ffi::gondwize_keep,
    return_to: ffi::gondwize_return,
    forget: ffi::gondwize_forget,
};

/// The lesson page's functions, with the bench's that know no caller.
const PAGE_FUNCTIONS: Functions = Functions {
    check_set: ffi::gondwize_page_check_set,
    totals: ffi::gondwize_page_totals,
    scatter: ffi::gondwize_page_scatter,
    adding_scatter: ffi::gondwize_page_adding_scatter,
    update: ffi::gondwize_page_update,
    gather: ffi::gondwize_page_gather,
    step: ffi::gondwize_page_step,
    run: ffi::gondwize_page_run,
    read_file: ffi::gondwize_page_read_file,
    keep: ffi::gondwize_page_keep,
    ..BENCH_FUNCTIONS
};

/// The static library of the proved crates, as the bench calls it.
// SAFETY: `include/gondwize.h` promises it of each function.
pub const PROVED: Library = unsafe { Library::new(BENCH_FUNCTIONS) };

/// The same library, as the lesson page calls it.
// SAFETY: as above.
pub const PAGE: Library = unsafe { Library::new(PAGE_FUNCTIONS) };

// SAFETY, of every call below: the pointers are those of slices with their lengths and of arrays and
// numbers, what is written to is borrowed by itself, and [`Library::new`] was given functions that ask
// no more.
impl Library {
    /// The library with these functions.
    ///
    /// # Safety
    ///
    /// Each function takes any numbers and any contents where its pointers are as [`ffi`] asks. Of
    /// memory that is not its own it touches only what they lead to there, writes only through `*mut`
    /// and only initialised elements, and keeps no pointer. It does not unwind, and several threads may
    /// call it at the same time.
    pub const unsafe fn new(functions: Functions) -> Self {
        Library { functions }
    }

    /// Read a record: eleven values.
    #[must_use]
    pub fn read_record(&self, bytes: &[u8], values: &mut [i64; 11]) -> u64 {
        unsafe { (self.functions.read_record)(bytes.as_ptr(), bytes.len(), values) }
    }

    /// Write a record.
    #[must_use]
    pub fn write_record(&self, p: &Particle, bytes: &mut [u8]) -> u64 {
        unsafe {
            (self.functions.write_record)(
                p.identifier,
                p.mass,
                p.x,
                p.y,
                p.vx,
                p.vy,
                p.bxx,
                p.bxy,
                p.byx,
                p.byy,
                p.marks,
                bytes.as_mut_ptr(),
                bytes.len(),
            )
        }
    }

    /// Check a set: the number of records.
    #[must_use]
    pub fn check_set(&self, size: Size, records: &[u8], count: &mut u64) -> u64 {
        unsafe {
            (self.functions.check_set)(size.nx, size.ny, records.as_ptr(), records.len(), count)
        }
    }

    /// Totals: six values.
    #[must_use]
    pub fn totals(&self, size: Size, records: &[u8], values: &mut [i64; 6]) -> u64 {
        unsafe {
            (self.functions.totals)(size.nx, size.ny, records.as_ptr(), records.len(), values)
        }
    }

    /// Weights: three values.
    #[must_use]
    pub fn weights(&self, q: i64, values: &mut [i64; 3]) -> u64 {
        unsafe { (self.functions.weights)(q, values) }
    }

    /// One of the scatters, which is a function of the library.
    unsafe fn scatter_by(
        scatter: Scatter,
        size: Size,
        records: &[u8],
        grid: &mut GridBuffers,
    ) -> u64 {
        unsafe {
            scatter(
                size.nx,
                size.ny,
                records.as_ptr(),
                records.len(),
                grid.mass.as_mut_ptr(),
                grid.mass.len(),
                grid.x.as_mut_ptr(),
                grid.x.len(),
                grid.y.as_mut_ptr(),
                grid.y.len(),
            )
        }
    }

    /// Scatter.
    #[must_use]
    pub fn scatter(&self, size: Size, records: &[u8], grid: &mut GridBuffers) -> u64 {
        unsafe { Library::scatter_by(self.functions.scatter, size, records, grid) }
    }

    /// Adding scatter.
    #[must_use]
    pub fn adding_scatter(&self, size: Size, records: &[u8], grid: &mut GridBuffers) -> u64 {
        unsafe { Library::scatter_by(self.functions.adding_scatter, size, records, grid) }
    }

    /// Update.
    #[must_use]
    pub fn update(&self, settings: Settings, grid: &mut GridBuffers) -> u64 {
        let Settings {
            size,
            gx,
            gy,
            edge,
            drag,
        } = settings;
        unsafe {
            (self.functions.update)(
                size.nx,
                size.ny,
                gx,
                gy,
                edge.kind(),
                edge.width(),
                drag,
                grid.mass.as_ptr(),
                grid.mass.len(),
                grid.x.as_mut_ptr(),
                grid.x.len(),
                grid.y.as_mut_ptr(),
                grid.y.len(),
            )
        }
    }

    /// Gather.
    #[must_use]
    pub fn gather(&self, size: Size, records: &mut [u8], x: &[i64], y: &[i64]) -> u64 {
        unsafe {
            (self.functions.gather)(
                size.nx,
                size.ny,
                records.as_mut_ptr(),
                records.len(),
                x.as_ptr(),
                x.len(),
                y.as_ptr(),
                y.len(),
            )
        }
    }

    /// Step.
    #[must_use]
    pub fn step(&self, settings: Settings, records: &mut [u8], grid: &mut GridBuffers) -> u64 {
        let Settings {
            size,
            gx,
            gy,
            edge,
            drag,
        } = settings;
        unsafe {
            (self.functions.step)(
                size.nx,
                size.ny,
                gx,
                gy,
                edge.kind(),
                edge.width(),
                drag,
                records.as_mut_ptr(),
                records.len(),
                grid.mass.as_mut_ptr(),
                grid.mass.len(),
                grid.x.as_mut_ptr(),
                grid.x.len(),
                grid.y.as_mut_ptr(),
                grid.y.len(),
            )
        }
    }

    /// Run: the number of completed steps, also where it is refused.
    #[must_use]
    pub fn run(
        &self,
        settings: Settings,
        steps: usize,
        records: &mut [u8],
        grid: &mut GridBuffers,
        completed: &mut u64,
    ) -> u64 {
        let Settings {
            size,
            gx,
            gy,
            edge,
            drag,
        } = settings;
        unsafe {
            (self.functions.run)(
                size.nx,
                size.ny,
                gx,
                gy,
                edge.kind(),
                edge.width(),
                drag,
                steps,
                records.as_mut_ptr(),
                records.len(),
                grid.mass.as_mut_ptr(),
                grid.mass.len(),
                grid.x.as_mut_ptr(),
                grid.x.len(),
                grid.y.as_mut_ptr(),
                grid.y.len(),
                completed,
            )
        }
    }

    /// Read a file: nine values.
    #[must_use]
    pub fn read_file(&self, bytes: &[u8], values: &mut [i64; 9]) -> u64 {
        unsafe { (self.functions.read_file)(bytes.as_ptr(), bytes.len(), values) }
    }

    /// Write a header.
    #[must_use]
    pub fn write_header(&self, h: &Header, bytes: &mut [u8]) -> u64 {
        unsafe {
            (self.functions.write_header)(
                h.size.nx,
                h.size.ny,
                h.gx,
                h.gy,
                h.count,
                h.steps,
                h.edge.kind(),
                h.edge.width(),
                h.drag,
                bytes.as_mut_ptr(),
                bytes.len(),
            )
        }
    }

    /// Keep.
    #[must_use]
    pub fn keep(&self, store: &mut [u8], name: &[u8], file: &[u8]) -> u64 {
        unsafe {
            (self.functions.keep)(
                store.as_mut_ptr(),
                store.len(),
                name.as_ptr(),
                name.len(),
                file.as_ptr(),
                file.len(),
            )
        }
    }

    /// Return: the length of the file.
    #[must_use]
    pub fn return_to(&self, store: &[u8], name: &[u8], buffer: &mut [u8], length: &mut u64) -> u64 {
        unsafe {
            (self.functions.return_to)(
                store.as_ptr(),
                store.len(),
                name.as_ptr(),
                name.len(),
                buffer.as_mut_ptr(),
                buffer.len(),
                length,
            )
        }
    }

    /// Forget.
    #[must_use]
    pub fn forget(&self, store: &mut [u8], name: &[u8]) -> u64 {
        unsafe {
            (self.functions.forget)(store.as_mut_ptr(), store.len(), name.as_ptr(), name.len())
        }
    }
}
