//! The component through its C functions: plain calls, which are measured, and the entries of the protocol of cases, which are tested.

pub mod calls;
pub mod entries;
