//! The ids of views and documents.

use std::fmt;

/// The id of a view: 1, 2, 3 and so on in the order in which a session's views are opened. None is given twice.
#[derive(Clone, Copy, Debug, PartialEq, Eq, PartialOrd, Ord, Hash)]
#[repr(transparent)]
pub struct ViewId(u32);

/// The id of a document, as CREATEDOCUMENT and GETDOCPOINTER return it. None is given twice.
#[derive(Clone, Copy, Debug, PartialEq, Eq, PartialOrd, Ord, Hash)]
#[repr(transparent)]
pub struct DocumentId(i64);

macro_rules! number {
    ($id:ident, $number:ident) => {
        impl From<$number> for $id {
            fn from(number: $number) -> $id {
                $id(number)
            }
        }

        impl From<$id> for $number {
            fn from(id: $id) -> $number {
                id.0
            }
        }

        impl fmt::Display for $id {
            fn fmt(&self, formatter: &mut fmt::Formatter<'_>) -> fmt::Result {
                self.0.fmt(formatter)
            }
        }
    };
}

number!(ViewId, u32);
number!(DocumentId, i64);
