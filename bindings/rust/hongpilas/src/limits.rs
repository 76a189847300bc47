//! The limits of a session.

use hongpilas_sys as sys;

/// The limits of a session. Each is at least 1, and at most what it is by default.
///
/// ```
/// use hongpilas::Limits;
///
/// let mut limits = Limits::default();
/// limits.views = 2;
/// assert_eq!(limits.doc_bytes, Limits::GREATEST.doc_bytes);
/// ```
///
/// A later version may have more of them, so no literal makes them:
///
/// ```compile_fail,E0639
/// let limits = hongpilas::Limits { views: 2, ..hongpilas::Limits::GREATEST };
/// ```
#[derive(Clone, Copy, Debug, PartialEq, Eq, Hash)]
#[non_exhaustive]
pub struct Limits {
    /// Bytes of a document: 2^31 - 1.
    pub doc_bytes: u64,
    /// Bytes of a document for large texts: 2^40.
    pub large_bytes: u64,
    /// Marker handles of one document, ever: 2^31 - 1.
    pub handles: u64,
    /// Document ids, ever; and view ids, ever: 2^31 - 1.
    pub ids: u64,
    /// References to one document: 2^31 - 1.
    pub refs: u64,
    /// Open views: 1024.
    pub views: u64,
    /// Depth of undo groups: 255.
    pub depth: u64,
}

impl Limits {
    /// All limits at their greatest.
    pub const GREATEST: Limits = {
        let sys::hongpilas_limits { doc_bytes, large_bytes, handles, ids, refs, views, depth } =
            sys::HONGPILAS_GREATEST_LIMITS;
        Limits { doc_bytes, large_bytes, handles, ids, refs, views, depth }
    };
}

impl Default for Limits {
    /// The greatest limits.
    fn default() -> Limits {
        Limits::GREATEST
    }
}

impl From<Limits> for sys::hongpilas_limits {
    fn from(limits: Limits) -> sys::hongpilas_limits {
        let Limits { doc_bytes, large_bytes, handles, ids, refs, views, depth } = limits;
        sys::hongpilas_limits { doc_bytes, large_bytes, handles, ids, refs, views, depth }
    }
}
