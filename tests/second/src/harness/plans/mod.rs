//! Plans, sheets of links and inputs of the program `margin`: small and random ones,
//! with cuts and with damage.

pub mod cuts;
pub mod damage;
pub mod draft;
pub mod generate;
pub mod groups;
pub mod questions;
pub mod sheets;
pub mod small_plans;
pub mod topology;
pub mod widths;
