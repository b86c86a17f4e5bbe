// Makes one write, sync or rename of a program fail, or ends the program there, on x86-64 Linux. It is built as a
// library that is loaded ahead of the C library, and its functions take the place of that library's. Only what is done
// to the files of one folder counts. What was done is written to a trace, from which a test can tell what a disk has.
//
// FAULT_FOLDER  the folder, as the system names it
// FAULT_TRACE   the file of the trace: a line for each call with what it did and its result
// FAULT_AT      the number of the call at which it happens, from 1 on; 0 for never
// FAULT_HOW     kill: the program ends before the call; half: it ends in the middle of it, if it is a write; after: it
//               ends after it; error: the call does nothing and fails, once; full: half is written, and then the disk
//               is full for good
use std::ffi::{c_char, c_int, c_long, CStr};
use std::sync::atomic::{AtomicBool, AtomicU64, Ordering};

static CALLS: AtomicU64 = AtomicU64::new(0);
static FULL: AtomicBool = AtomicBool::new(false);

const WRITE: c_long = 1;
const OPEN: c_long = 2;
const CLOSE: c_long = 3;
const SYNC: c_long = 74;
const RENAME: c_long = 82;
const APPEND_AND_MAKE: c_int = 0o2101;
const FAILED: c_int = 5; // EIO
const NO_SPACE: c_int = 28; // ENOSPC
const KILL: c_int = 9;

extern "C" {
    fn syscall(number: c_long, ...) -> c_long;
    fn __errno_location() -> *mut c_int;
    fn readlink(path: *const c_char, name: *mut u8, size: usize) -> isize;
    fn getenv(name: *const c_char) -> *const c_char;
    fn getpid() -> c_int;
    fn kill(process: c_int, signal: c_int) -> c_int;
}

fn setting(name: &CStr) -> Option<&'static str> {
    unsafe {
        let value = getenv(name.as_ptr());
        (!value.is_null()).then(|| CStr::from_ptr(value).to_str().unwrap_or(""))
    }
}

/// The name of a file below the folder, "." for the folder itself, or nothing for any other file.
fn below(path: &str) -> Option<String> {
    let folder = setting(c"FAULT_FOLDER")?;
    let name = path.strip_prefix(folder)?;
    if name.is_empty() { Some(".".to_string()) } else { name.strip_prefix('/').map(str::to_string) }
}

fn name_of(file: c_int) -> Option<String> {
    let link = format!("/proc/self/fd/{file}\0");
    let mut name = [0u8; 4096];
    let size = unsafe { readlink(link.as_ptr().cast(), name.as_mut_ptr(), name.len()) };
    below(std::str::from_utf8(&name[..usize::try_from(size).ok()?]).ok()?)
}

fn end() -> ! {
    unsafe { kill(getpid(), KILL) };
    loop {}
}

fn refuse(reason: c_int) -> c_long {
    unsafe { *__errno_location() = reason };
    -1
}

fn trace(what: &str, result: c_long) {
    let Some(path) = setting(c"FAULT_TRACE") else { return };
    let (path, line) = (format!("{path}\0"), format!("{what} {result}\n"));
    unsafe {
        let reason = *__errno_location();
        let file = syscall(OPEN, path.as_ptr(), APPEND_AND_MAKE, 0o600 as c_int);
        syscall(WRITE, file, line.as_ptr(), line.len());
        syscall(CLOSE, file);
        *__errno_location() = reason;
    }
}

/// Does a call, or what is to happen in its place. `half` is the same call with half of its work, where there is one.
fn counted(what: &str, whole: &dyn Fn() -> c_long, half: Option<&dyn Fn() -> c_long>) -> c_long {
    let number = CALLS.fetch_add(1, Ordering::Relaxed) + 1;
    let is_now = setting(c"FAULT_AT").and_then(|at| at.parse().ok()) == Some(number);
    let how = if is_now { setting(c"FAULT_HOW").unwrap_or("") } else { "" };
    if how == "kill" {
        end();
    }
    let result = match half {
        Some(_) if FULL.load(Ordering::Relaxed) => refuse(NO_SPACE),
        Some(half) if how == "half" || how == "full" => half(),
        None if how == "full" => refuse(NO_SPACE),
        _ if how == "error" => refuse(FAILED),
        _ => whole(),
    };
    trace(what, result);
    match how {
        "half" | "after" => end(),
        "full" => FULL.store(true, Ordering::Relaxed),
        _ => (),
    }
    result
}

#[no_mangle]
pub unsafe extern "C" fn write(file: c_int, bytes: *const u8, size: usize) -> isize {
    let written = |size: usize| unsafe { syscall(WRITE, file as c_long, bytes, size) };
    match name_of(file) {
        None => written(size) as isize,
        Some(name) => counted(&format!("write {name}"), &|| written(size), Some(&|| written(size / 2))) as isize,
    }
}

#[no_mangle]
pub unsafe extern "C" fn fsync(file: c_int) -> c_int {
    let synced = || unsafe { syscall(SYNC, file as c_long) };
    match name_of(file) {
        None => synced() as c_int,
        Some(name) => counted(&format!("sync {name}"), &synced, None) as c_int,
    }
}

#[no_mangle]
pub unsafe extern "C" fn rename(old: *const c_char, new: *const c_char) -> c_int {
    let renamed = || unsafe { syscall(RENAME, old, new) };
    let name = |path| unsafe { CStr::from_ptr(path) }.to_str().ok().and_then(below);
    match (name(old), name(new)) {
        (Some(old), Some(new)) => counted(&format!("rename {old} {new}"), &renamed, None) as c_int,
        _ => renamed() as c_int,
    }
}
