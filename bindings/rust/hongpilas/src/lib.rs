#![doc = include_str!("../README.md")]
#![warn(missing_docs)]

mod ids;
mod limits;
mod lines;
mod messages;
mod notes;
mod refusal;
mod session;
mod view;

pub use ids::{DocumentId, ViewId};
pub use limits::Limits;
pub use lines::Lines;
pub use notes::{note_name, Note, Notes};
pub use refusal::Refusal;
pub use session::Session;
pub use view::{UndoGroup, View, ViewMut};

/// The calls for C.
pub use hongpilas_sys as sys;
#[doc(no_inline)]
pub use hongpilas_sys::constants::*;
pub use hongpilas_sys::HONGPILAS_VERSION;

/// Bytes that the library lends. If there are none, their address means nothing.
///
/// # Safety
/// `length` bytes are at `bytes` as long as `'a` lasts, unless there are none.
unsafe fn lent<'a>(bytes: *const u8, length: usize) -> &'a [u8] {
    if length == 0 {
        return &[];
    }
    std::slice::from_raw_parts(bytes, length)
}
