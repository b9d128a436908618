//! Stands before the C library's calls on files (by LD_PRELOAD). With FAULTS_TRACE it appends a line for each to that file, as
//! `write ledger 28`; with FAULTS_FAIL, as `fdatasync ledger 2 5`, the second fdatasync on the file of that name fails by error 5.
//! A call `short` fails a write by taking the first half of its bytes, and by the error for what is written after that.

use std::env;
use std::ffi::{CString, c_char, c_int, c_void};
use std::fs;
use std::sync::OnceLock;
use std::sync::atomic::{AtomicUsize, Ordering};

unsafe extern "C" {
    fn dlsym(handle: *mut c_void, name: *const c_char) -> *mut c_void;
    fn open(path: *const c_char, flags: c_int, ...) -> c_int;
    fn __errno_location() -> *mut c_int;
}

const NEXT: *mut c_void = -1isize as *mut c_void;
const WRITE_CREATE_APPEND: c_int = 0o2101;

type Write = unsafe extern "C" fn(c_int, *const c_void, usize) -> isize;
type OnFile = unsafe extern "C" fn(c_int) -> c_int;
type Truncate = unsafe extern "C" fn(c_int, i64) -> c_int;

struct Fault {
    call: String,
    file: String,
    turn: usize,
    error: c_int,
}

/// How many calls of the kind that is to fail have been made.
static CALLS: AtomicUsize = AtomicUsize::new(0);

fn fault() -> Option<&'static Fault> {
    static FAULT: OnceLock<Option<Fault>> = OnceLock::new();
    FAULT
        .get_or_init(|| {
            let text = env::var("FAULTS_FAIL").ok()?;
            let mut words = text.split(' ');
            Some(Fault {
                call: words.next()?.to_string(),
                file: words.next()?.to_string(),
                turn: words.next()?.parse().ok()?,
                error: words.next()?.parse().ok()?,
            })
        })
        .as_ref()
}

/// The last name of the file that is open as `fd`; a folder is `.`.
fn name(fd: c_int) -> String {
    let Ok(path) = fs::read_link(format!("/proc/self/fd/{fd}")) else {
        return "none".to_string();
    };
    if path.is_dir() {
        return ".".to_string();
    }
    match path.file_name() {
        Some(name) => name.to_string_lossy().into_owned(),
        None => "none".to_string(),
    }
}

unsafe fn real_write(fd: c_int, bytes: *const c_void, len: usize) -> isize {
    let call: Write = unsafe { std::mem::transmute(dlsym(NEXT, c"write".as_ptr())) };
    unsafe { call(fd, bytes, len) }
}

fn trace(line: &str) {
    static FILE: OnceLock<Option<c_int>> = OnceLock::new();
    let file = FILE.get_or_init(|| {
        let path = CString::new(env::var("FAULTS_TRACE").ok()?).ok()?;
        Some(unsafe { open(path.as_ptr(), WRITE_CREATE_APPEND, 0o644) })
    });
    if let Some(fd) = *file {
        unsafe { real_write(fd, line.as_ptr().cast(), line.len()) };
    }
}

/// The error by which this call is to fail, if it is.
fn failing(call: &str, file: &str) -> Option<c_int> {
    let fault = fault()?;
    if fault.call != call || fault.file != file {
        return None;
    }
    let turn = CALLS.fetch_add(1, Ordering::SeqCst) + 1;
    (turn == fault.turn).then_some(fault.error)
}

fn fail(error: c_int) {
    unsafe { *__errno_location() = error };
}

/// # Safety
/// As the C library's write.
#[unsafe(no_mangle)]
pub unsafe extern "C" fn write(fd: c_int, bytes: *const c_void, len: usize) -> isize {
    let file = if fd == 1 {
        "stdout".to_string()
    } else {
        name(fd)
    };
    if let Some(error) = failing("write", &file) {
        trace(&format!("write {file} failed\n"));
        fail(error);
        return -1;
    }
    if failing("short", &file).is_some() {
        trace(&format!("write {file} {} of {len}\n", len / 2));
        return unsafe { real_write(fd, bytes, len / 2) };
    }
    if let Some(fault) = fault()
        && fault.call == "short"
        && fault.file == file
        && CALLS.load(Ordering::SeqCst) > fault.turn
    {
        trace(&format!("write {file} failed\n"));
        fail(fault.error);
        return -1;
    }
    trace(&format!("write {file} {len}\n"));
    unsafe { real_write(fd, bytes, len) }
}

unsafe fn on_file(call: &std::ffi::CStr, fd: c_int) -> c_int {
    let text = call.to_string_lossy();
    let file = name(fd);
    if let Some(error) = failing(&text, &file) {
        trace(&format!("{text} {file} failed\n"));
        fail(error);
        return -1;
    }
    trace(&format!("{text} {file}\n"));
    let real: OnFile = unsafe { std::mem::transmute(dlsym(NEXT, call.as_ptr())) };
    unsafe { real(fd) }
}

/// # Safety
/// As the C library's fsync.
#[unsafe(no_mangle)]
pub unsafe extern "C" fn fsync(fd: c_int) -> c_int {
    unsafe { on_file(c"fsync", fd) }
}

/// # Safety
/// As the C library's fdatasync.
#[unsafe(no_mangle)]
pub unsafe extern "C" fn fdatasync(fd: c_int) -> c_int {
    unsafe { on_file(c"fdatasync", fd) }
}

/// # Safety
/// As the C library's ftruncate.
#[unsafe(no_mangle)]
pub unsafe extern "C" fn ftruncate(fd: c_int, len: i64) -> c_int {
    let file = name(fd);
    if let Some(error) = failing("ftruncate", &file) {
        trace(&format!("ftruncate {file} failed\n"));
        fail(error);
        return -1;
    }
    trace(&format!("ftruncate {file} {len}\n"));
    let real: Truncate = unsafe { std::mem::transmute(dlsym(NEXT, c"ftruncate".as_ptr())) };
    unsafe { real(fd, len) }
}
