//! What compares a checker with the oracle, call by call and byte by byte, on plans and
//! sheets that are made here; and faults that the comparison must find.

pub mod cases;
pub mod comparison;
pub mod faults;
pub mod plans;
pub mod random;
pub mod surveys;
