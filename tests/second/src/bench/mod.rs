//! The yardstick, and what times the library against it.

#[cfg(feature = "library")]
mod calls;
#[cfg(feature = "library")]
mod shapes;
pub mod tight;
#[cfg(feature = "library")]
pub mod timing;
#[cfg(feature = "library")]
mod turns;
