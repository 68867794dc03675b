//! The calls of the library, as safe functions over slices.

use std::ffi::CStr;
use std::os::raw::c_char;
use std::ptr;

/// The interface that these declarations are for: BALISEPLAN_ABI of the header.
const ABI: u32 = 1;

extern "C" {
    fn baliseplan_abi() -> u32;
    fn baliseplan_version() -> *const c_char;
    fn baliseplan_run(
        input: *const u8,
        input_len: usize,
        flags: u32,
        output: *mut u8,
        output_len: usize,
        written: *mut usize,
    ) -> i32;
    fn baliseplan_size(input: *const u8, input_len: usize, flags: u32, size: *mut usize) -> i32;
    fn baliseplan_run_alloc(
        input: *const u8,
        input_len: usize,
        flags: u32,
        output: *mut *mut u8,
        output_len: *mut usize,
    ) -> i32;
    fn baliseplan_facts(
        input: *const u8,
        input_len: usize,
        what: u32,
        serial: u32,
        output: *mut u8,
        output_len: usize,
        written: *mut usize,
    ) -> i32;
    fn baliseplan_facts_alloc(
        input: *const u8,
        input_len: usize,
        what: u32,
        serial: u32,
        output: *mut *mut u8,
        output_len: *mut usize,
    ) -> i32;
    fn baliseplan_explain(
        input: *const u8,
        input_len: usize,
        output: *mut u8,
        output_len: usize,
        written: *mut usize,
    ) -> i32;
    fn baliseplan_explain_alloc(
        input: *const u8,
        input_len: usize,
        output: *mut *mut u8,
        output_len: *mut usize,
    ) -> i32;
    fn baliseplan_spell(
        input: *const u8,
        input_len: usize,
        output: *mut u8,
        output_len: usize,
        written: *mut usize,
    ) -> i32;
    fn baliseplan_spell_alloc(
        input: *const u8,
        input_len: usize,
        output: *mut *mut u8,
        output_len: *mut usize,
    ) -> i32;
    fn baliseplan_free(output: *mut u8);
}

/// A way over fields.
#[derive(Clone, Copy)]
pub enum Way {
    Explain,
    Spell,
}

/// An output that the library allocated.
pub struct Output {
    start: *mut u8,
    len: usize,
}

impl Output {
    pub fn bytes(&self) -> &[u8] {
        if self.start.is_null() {
            return &[];
        }
        // SAFETY: the library wrote this many bytes there, and the block lives until it is dropped.
        unsafe { std::slice::from_raw_parts(self.start, self.len) }
    }
}

impl Drop for Output {
    fn drop(&mut self) {
        // SAFETY: the block is the library's, and is freed once.
        unsafe { baliseplan_free(self.start) }
    }
}

pub fn run_alloc(input: &[u8], flags: u32) -> (i32, Output) {
    check_abi();
    let mut output = Output {
        start: ptr::null_mut(),
        len: 0,
    };
    // SAFETY: a slice's pointer is never null, its bytes are initialized, and the borrows keep the three apart.
    let answer = unsafe {
        baliseplan_run_alloc(
            input.as_ptr(),
            input.len(),
            flags,
            &mut output.start,
            &mut output.len,
        )
    };
    (answer, output)
}

pub fn run(input: &[u8], flags: u32, output: &mut [u8]) -> (i32, usize) {
    check_abi();
    let mut written = 0;
    // SAFETY: as above.
    let answer = unsafe {
        baliseplan_run(
            input.as_ptr(),
            input.len(),
            flags,
            output.as_mut_ptr(),
            output.len(),
            &mut written,
        )
    };
    (answer, written)
}

pub fn size(input: &[u8], flags: u32) -> (i32, usize) {
    check_abi();
    let mut size = 0;
    // SAFETY: as above.
    let answer = unsafe { baliseplan_size(input.as_ptr(), input.len(), flags, &mut size) };
    (answer, size)
}

pub fn facts_alloc(input: &[u8], what: u32, serial: u32) -> (i32, Output) {
    check_abi();
    let mut output = Output {
        start: ptr::null_mut(),
        len: 0,
    };
    // SAFETY: as above.
    let answer = unsafe {
        baliseplan_facts_alloc(
            input.as_ptr(),
            input.len(),
            what,
            serial,
            &mut output.start,
            &mut output.len,
        )
    };
    (answer, output)
}

pub fn facts(input: &[u8], what: u32, serial: u32, output: &mut [u8]) -> (i32, usize) {
    check_abi();
    let mut written = 0;
    // SAFETY: as above.
    let answer = unsafe {
        baliseplan_facts(
            input.as_ptr(),
            input.len(),
            what,
            serial,
            output.as_mut_ptr(),
            output.len(),
            &mut written,
        )
    };
    (answer, written)
}

pub fn fields_alloc(way: Way, input: &[u8]) -> (i32, Output) {
    check_abi();
    let call = match way {
        Way::Explain => baliseplan_explain_alloc,
        Way::Spell => baliseplan_spell_alloc,
    };
    let mut output = Output {
        start: ptr::null_mut(),
        len: 0,
    };
    // SAFETY: as above.
    let answer = unsafe {
        call(
            input.as_ptr(),
            input.len(),
            &mut output.start,
            &mut output.len,
        )
    };
    (answer, output)
}

pub fn fields(way: Way, input: &[u8], output: &mut [u8]) -> (i32, usize) {
    check_abi();
    let call = match way {
        Way::Explain => baliseplan_explain,
        Way::Spell => baliseplan_spell,
    };
    let mut written = 0;
    // SAFETY: as above.
    let answer = unsafe {
        call(
            input.as_ptr(),
            input.len(),
            output.as_mut_ptr(),
            output.len(),
            &mut written,
        )
    };
    (answer, written)
}

pub fn version() -> &'static str {
    // SAFETY: the call takes nothing and answers a text of ASCII that stays.
    let text = unsafe { CStr::from_ptr(baliseplan_version()) };
    text.to_str().unwrap_or("")
}

fn check_abi() {
    // SAFETY: the call takes nothing and answers a number.
    let abi = unsafe { baliseplan_abi() };
    assert_eq!(
        abi, ABI,
        "the library has another interface than this crate"
    );
}
