//! A second checker of BGP route-reflection plans (`oracle`), what compares
//! other checkers with it (`harness`), and what times them (`bench`).

pub mod bench;
pub mod harness;
pub mod interface;
#[cfg(feature = "library")]
pub mod library;
pub mod oracle;
