//! Faults planted: checkers that misread a rule, checkers that slip in a call, and wrong
//! programs, for the comparison to find each.

pub mod careless;
mod compare_slips;
pub mod convert_slips;
pub mod count_slips;
pub mod empty_list_misreadings;
pub mod empty_list_slips;
pub mod every_list_slips;
pub mod explain_misreadings;
mod explain_slips;
pub mod figure_slips;
pub mod grade_slips;
pub mod hop_misreadings;
pub mod hop_set_slips;
pub mod hop_slips;
pub mod misreader;
pub mod misreadings;
pub mod parent_slips;
pub mod role_slips;
mod sheet_slips;
pub mod skip_misreadings;
pub mod slips;
pub mod steady_misreadings;
pub mod steady_slips;
pub mod width_slips;
pub mod wrong_programs;
