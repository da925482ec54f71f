//! The root that the build puts around the original's files. `acceptance.rs` has the items that it takes from `lib.rs`.

#![allow(dead_code)]

pub mod asm;
pub mod tdcall;
pub mod unaccepted_memory;

use bitflags::bitflags;
use tdcall::{accept_page, TdCallError};

include!("acceptance.rs");
