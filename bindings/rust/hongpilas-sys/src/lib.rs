#![doc = include_str!("../README.md")]
#![no_std]
#![allow(non_camel_case_types)]

mod calls;
pub mod constants;

pub use calls::*;
pub use constants::*;

use core::marker::{PhantomData, PhantomPinned};

/// A session, of which a program has only the address.
#[repr(C)]
#[derive(Debug)]
pub struct hongpilas_session {
    nothing: [u8; 0],
    // It moves by no value, and no thread is promised anything.
    marker: PhantomData<(*mut u8, PhantomPinned)>,
}

/// What a call answers: [`HONGPILAS_DONE`], or the number of a refusal.
pub type hongpilas_answer = u32;
