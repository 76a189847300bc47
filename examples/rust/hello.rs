//! Opens a session, writes a text, reads it back, and closes: over the calls of hongpilas.h, without a crate.
//!
//!     rustc hello.rs -L ../../out -l static=hongpilas
//!
//! In ../../bindings/rust are crates whose types take over duties of the caller.
use std::ffi::{c_char, CStr};
use std::mem;
use std::ptr;
use std::slice;

/// What a session's address leads to, which means nothing to the caller.
#[repr(C)]
struct Opaque {
    _private: [u8; 0],
}

/// A notification; hongpilas_note_data of the header.
#[repr(C)]
struct Note {
    view: u32,
    code: u32,
    kind: u32,
    message: u32,
    position: i64,
    length: i64,
    lines: i64,
    line: i64,
    now: i64,
    prev: i64,
    token: i64,
    w: i64,
    l: i64,
    text: *const u8,
    text_length: usize,
}

extern "C" {
    fn hongpilas_version() -> u32;
    fn hongpilas_new(session: *mut *mut Opaque) -> u32;
    fn hongpilas_free(session: *mut Opaque);
    fn hongpilas_new_view(session: *mut Opaque, view: *mut u32) -> u32;
    fn hongpilas_send(
        session: *mut Opaque,
        view: u32,
        number: u32,
        w: i64,
        l: i64,
        text: *const u8,
        length: usize,
        value: *mut i64,
    ) -> u32;
    fn hongpilas_text(session: *const Opaque, text: *mut *const u8, length: *mut usize) -> u32;
    fn hongpilas_note(session: *const Opaque, index: usize, note: *mut Note, size: usize) -> u32;
    fn hongpilas_lend_range(session: *mut Opaque, view: u32, start: usize, count: usize, bytes: *mut *const u8) -> u32;
    fn hongpilas_answer_name(answer: u32) -> *const c_char;
}

const SCI_INSERTTEXT: u32 = 2003;
const SCI_GETLENGTH: u32 = 2006;
const SCI_GETLINE: u32 = 2153;
const SCI_UNDO: u32 = 2176;

/// Borrowed bytes as a text, copied. If there are none, their address means nothing.
unsafe fn copied(bytes: *const u8, length: usize) -> String {
    if length == 0 {
        return String::new();
    }
    String::from_utf8_lossy(slice::from_raw_parts(bytes, length)).into_owned()
}

/// The name of an answer.
fn name_of(answer: u32) -> String {
    unsafe { CStr::from_ptr(hongpilas_answer_name(answer)) }.to_string_lossy().into_owned()
}

/// A session with one view, freed when it is dropped. It may be moved to another thread, and is used by one at a time.
struct Session {
    handle: *mut Opaque,
    view: u32,
}

unsafe impl Send for Session {}

impl Session {
    fn open() -> Result<Session, u32> {
        let mut session = Session { handle: ptr::null_mut(), view: 0 };
        match unsafe { hongpilas_new(&mut session.handle) } {
            0 => {}
            refusal => return Err(refusal),
        }
        match unsafe { hongpilas_new_view(session.handle, &mut session.view) } {
            0 => Ok(session),
            refusal => Err(refusal),
        }
    }

    /// Sends a message.
    fn send(&mut self, number: u32, w: i64, l: i64, text: &[u8]) -> Result<i64, u32> {
        let mut value = 0;
        let answer =
            unsafe { hongpilas_send(self.handle, self.view, number, w, l, text.as_ptr(), text.len(), &mut value) };
        if answer == 0 {
            Ok(value)
        } else {
            Err(answer)
        }
    }

    /// The last reply's text.
    fn text(&mut self) -> String {
        let (mut text, mut length) = (ptr::null(), 0);
        match unsafe { hongpilas_text(self.handle, &mut text, &mut length) } {
            0 => unsafe { copied(text, length) },
            refusal => name_of(refusal),
        }
    }

    /// Bytes of the document, borrowed: they are valid until the next call.
    fn range(&mut self, start: usize, count: usize) -> Result<&[u8], u32> {
        let mut bytes = ptr::null();
        match unsafe { hongpilas_lend_range(self.handle, self.view, start, count, &mut bytes) } {
            0 if count == 0 => Ok(&[]),
            0 => Ok(unsafe { slice::from_raw_parts(bytes, count) }),
            refusal => Err(refusal),
        }
    }

    /// Prints the notifications of the last reply.
    fn print_notes(&mut self) {
        let mut note: Note = unsafe { mem::zeroed() };
        let mut index = 0;
        while unsafe { hongpilas_note(self.handle, index, &mut note, mem::size_of::<Note>()) } == 0 {
            let text = unsafe { copied(note.text, note.text_length) };
            println!(
                "  note {} of view {}: kind {}, position {}, lines {}, {:?}",
                note.code, note.view, note.kind, note.position, note.lines, text
            );
            index += 1;
        }
    }
}

impl Drop for Session {
    fn drop(&mut self) {
        unsafe { hongpilas_free(self.handle) }
    }
}

/// Prints the answer; a refusal by its name.
fn say(what: &str, answer: Result<i64, u32>) {
    match answer {
        Ok(value) => println!("{what}: {value}"),
        Err(refusal) => println!("{what}: refused, {}", name_of(refusal)),
    }
}

fn main() {
    assert_eq!(unsafe { hongpilas_version() } / 1000, 2);
    let session = Session::open().unwrap_or_else(|refusal| panic!("{}", name_of(refusal)));
    // The session is handed to another thread, and back.
    let mut session = std::thread::spawn(move || session).join().unwrap();
    say("INSERTTEXT", session.send(SCI_INSERTTEXT, 0, 0, b"hello,\nworld"));
    session.print_notes();
    say("GETLENGTH", session.send(SCI_GETLENGTH, 0, 0, b""));
    say("GETLINE", session.send(SCI_GETLINE, 1, 0, b""));
    println!("  {:?}", session.text());
    println!("lent: {:?}", session.range(3, 6).map(String::from_utf8_lossy));
    say("a range past the end", session.range(7, 6).map(|_| 0));
    say("no such message", session.send(9999, 0, 0, b""));
    say("UNDO", session.send(SCI_UNDO, 0, 0, b""));
    say("GETLENGTH", session.send(SCI_GETLENGTH, 0, 0, b""));
}
