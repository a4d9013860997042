//! The original collector as a library: `judge` runs it, `unit` and `listed` say which listed differences a case can show, `expected` what
//! the port has to answer, `cases` makes cases, `keep` keep lists, and `growth` units that grow.

pub mod cases;
mod error;
pub mod expected;
pub mod growth;
pub mod judge;
pub mod keep;
pub mod listed;
pub mod order;
mod shims;
pub mod unit;
mod package {
    pub(crate) use crate::shims::DwoId;
}
mod relocate {
    pub(crate) use crate::shims::Relocate;
}
include!(concat!(env!("OUT_DIR"), "/declare.rs"));
