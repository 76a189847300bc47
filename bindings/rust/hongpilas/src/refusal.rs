//! Why a call is refused.

use hongpilas_sys::{self as sys, *};
use std::ffi::CStr;
use std::fmt;
use std::num::NonZeroU32;

/// Declares the refusals, and how they and the library's numbers lead to each other.
macro_rules! refusals {
    ($($(#[doc = $doc:literal])* $name:ident => $number:ident,)*) => {
        /// Why a call is refused. A refused call has changed nothing.
        ///
        /// A later version may have more of them, so a `match` has an arm for all others:
        ///
        /// ```compile_fail,E0004
        /// use hongpilas::Refusal;
        ///
        /// fn is_for_want_of_memory(refusal: Refusal) -> bool {
        ///     match refusal {
        ///         Refusal::OutOfMemory => true,
        ///         Refusal::NoSuchView | Refusal::UnknownMessage | Refusal::NoSuchDocument => false,
        ///         Refusal::TooLong | Refusal::BadArgument | Refusal::TooMany | Refusal::Other(_) => false,
        ///     }
        /// }
        /// ```
        #[derive(Clone, Copy, Debug, PartialEq, Eq, PartialOrd, Ord, Hash)]
        #[non_exhaustive]
        pub enum Refusal {
            $($(#[doc = $doc])* $name,)*
            /// A refusal of a later library, by its number.
            Other(NonZeroU32),
        }

        impl Refusal {
            /// The refusal with this number; `None` for 0, which says that a call was done.
            ///
            /// ```
            /// use hongpilas::Refusal;
            ///
            /// assert_eq!(Refusal::from_number(5), Some(Refusal::TooLong));
            /// assert_eq!(Refusal::from_number(99).map(Refusal::number), Some(99));
            /// assert_eq!(Refusal::from_number(0), None);
            /// ```
            pub fn from_number(number: u32) -> Option<Refusal> {
                match number {
                    $($number => Some(Refusal::$name),)*
                    _ => NonZeroU32::new(number).map(Refusal::Other),
                }
            }

            /// The refusal's number, as scripts print it.
            pub fn number(self) -> u32 {
                match self {
                    $(Refusal::$name => $number,)*
                    Refusal::Other(number) => number.get(),
                }
            }
        }
    };
}

refusals! {
    /// An allocation failed.
    OutOfMemory => HONGPILAS_OUT_OF_MEMORY,
    /// No view has this id.
    NoSuchView => HONGPILAS_NO_SUCH_VIEW,
    /// The profile has no such message.
    UnknownMessage => HONGPILAS_UNKNOWN_MESSAGE,
    /// No document has this id, or the caller holds no reference to it.
    NoSuchDocument => HONGPILAS_NO_SUCH_DOCUMENT,
    /// The text would exceed its limit after some step.
    TooLong => HONGPILAS_TOO_LONG,
    /// An argument is outside the range that the message states.
    BadArgument => HONGPILAS_BAD_ARGUMENT,
    /// Handles, ids, references, the depth of groups or open views are used up.
    TooMany => HONGPILAS_TOO_MANY,
}

impl Refusal {
    /// `Ok` if a call was done, else why it was refused.
    pub(crate) fn check(answer: sys::hongpilas_answer) -> Result<(), Refusal> {
        Refusal::from_number(answer).map_or(Ok(()), Err)
    }

    /// The refusal's name, such as `no such view`.
    pub fn name(self) -> &'static str {
        // SAFETY: each answer has a name, a string that is never freed.
        let name: &'static CStr = unsafe { CStr::from_ptr(sys::hongpilas_answer_name(self.number())) };
        name.to_str().unwrap_or("unknown refusal")
    }
}

impl fmt::Display for Refusal {
    fn fmt(&self, formatter: &mut fmt::Formatter<'_>) -> fmt::Result {
        formatter.write_str(self.name())
    }
}

impl std::error::Error for Refusal {}
