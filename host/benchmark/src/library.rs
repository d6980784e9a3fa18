//! Libraries with the same calls: the static library, Rust written for speed, and any two static
//! libraries side by side.

use std::ffi::{c_char, c_int, c_void, CStr, CString};
use std::fs;
use std::mem::transmute;
use std::path::Path;
use std::process::Command;

pub use engine::library::{Library, PAGE, PROVED};

use engine::library::Functions;
use optimised::c;

/// The bench's functions of a library, each made by a macro from its name here and its name in C.
macro_rules! functions {
    ($make:ident) => {
        engine::library::Functions {
            read_record: $make!(read_record gondwize_read_record),
            write_record: $make!(write_record gondwize_write_record),
            check_set: $make!(check_set gondwize_check_set),
            totals: $make!(totals gondwize_totals),
            weights: $make!(weights gondwize_weights),
            scatter: $make!(scatter gondwize_scatter),
            adding_scatter: $make!(adding_scatter gondwize_adding_scatter),
            update: $make!(update gondwize_update),
            gather: $make!(gather gondwize_gather),
            step: $make!(step gondwize_step),
            run: $make!(run gondwize_run),
            read_file: $make!(read_file gondwize_read_file),
            write_header: $make!(write_header gondwize_write_header),
            keep: $make!(keep gondwize_keep),
            return_to: $make!(return_to gondwize_return),
            forget: $make!(forget gondwize_forget),
        }
    };
}

/// The lesson page's, with those of the bench's that know no caller.
macro_rules! page_functions {
    ($make:ident, $bench:expr) => {
        engine::library::Functions {
            check_set: $make!(check_set gondwize_page_check_set),
            totals: $make!(totals gondwize_page_totals),
            scatter: $make!(scatter gondwize_page_scatter),
            adding_scatter: $make!(adding_scatter gondwize_page_adding_scatter),
            update: $make!(update gondwize_page_update),
            gather: $make!(gather gondwize_page_gather),
            step: $make!(step gondwize_page_step),
            run: $make!(run gondwize_page_run),
            read_file: $make!(read_file gondwize_page_read_file),
            keep: $make!(keep gondwize_page_keep),
            ..$bench
        }
    };
}

pub(crate) use {functions, page_functions};

macro_rules! optimised {
    ($name:ident $function:ident) => {
        c::$name
    };
}

macro_rules! optimised_page {
    ($name:ident $function:ident) => {
        c::page::$name
    };
}

/// Rust written for speed, as the bench calls it.
pub const OPTIMISED: Library = {
    // SAFETY: each function makes slices of its pointers and lengths and hands them to one that takes
    // any slices and has no state.
    unsafe { Library::new(functions!(optimised)) }
};

/// The same, as the lesson page calls it.
pub const OPTIMISED_PAGE: Library = {
    // SAFETY: as above.
    unsafe { Library::new(page_functions!(optimised_page, functions!(optimised))) }
};

unsafe extern "C" {
    fn dlopen(path: *const c_char, mode: c_int) -> *mut c_void;
    fn dlsym(library: *mut c_void, name: *const c_char) -> *mut c_void;
    fn dlerror() -> *const c_char;
}

/// RTLD_NOW and RTLD_LOCAL on Linux.
const NOW: c_int = 2;

/// What the last of the functions above has to say.
fn last_error() -> String {
    // SAFETY: it answers a string or NULL, valid until the next call; one thread loads.
    unsafe {
        let said = dlerror();
        if said.is_null() {
            return "no error".to_owned();
        }
        CStr::from_ptr(said).to_string_lossy().into_owned()
    }
}

/// Stands for a function that a library lacks.
extern "C" fn missing() {
    panic!("a call of a function that the library lacks");
}

/// Another build of the static library, beside the one that this program is linked with: made a shared
/// one by gcc in `room`, and loaded. A call of a function that an older build lacks ends the process.
///
/// # Errors
///
/// Where it cannot be made or loaded.
///
/// # Safety
///
/// The file is a static library whose functions keep what `include/gondwize.h` says.
pub unsafe fn load(archive: &Path, room: &Path, name: &str) -> Result<Library, String> {
    let shared = room.join(format!("{name}.so"));
    let mut gcc = Command::new("gcc");
    gcc.args(["-shared", "-Wl,-Bsymbolic,-z,now,--whole-archive"]);
    gcc.arg(archive)
        .args(["-Wl,--no-whole-archive", "-o"])
        .arg(&shared);
    let made = gcc.output().map_err(|error| format!("gcc: {error}"))?;
    if !made.status.success() {
        return Err(String::from_utf8_lossy(&made.stderr).into_owned());
    }
    let path =
        CString::new(shared.as_os_str().as_encoded_bytes()).map_err(|error| error.to_string())?;
    // SAFETY: the path is a string; loading runs no code but gcc's own for starting.
    let library = unsafe { dlopen(path.as_ptr(), NOW) };
    if library.is_null() {
        return Err(last_error());
    }
    fs::remove_file(&shared).map_err(|error| error.to_string())?;
    macro_rules! loaded {
        ($name:ident $function:ident) => {{
            let name = concat!(stringify!($function), "\0");
            // SAFETY: the name ends with zero; by what is asked of the caller the function is the
            // header's.
            unsafe {
                let function = dlsym(library, name.as_ptr().cast());
                if function.is_null() {
                    eprintln!("{} lacks {}", archive.display(), stringify!($function));
                    transmute::<extern "C" fn(), _>(missing)
                } else {
                    transmute::<*mut c_void, _>(function)
                }
            }
        }};
    }
    #[allow(clippy::missing_transmute_annotations)]
    let functions: Functions = functions!(loaded);
    // SAFETY: by what is asked of the caller.
    Ok(unsafe { Library::new(functions) })
}
