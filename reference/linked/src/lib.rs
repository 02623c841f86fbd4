//! The library's C interface, for the programs that link it, and what those that time it share.

pub mod calls;
pub mod timing;
