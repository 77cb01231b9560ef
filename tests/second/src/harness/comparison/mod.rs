//! The calls that are made on the oracle and on a checker: their arguments, what they
//! answer and leave, how that is compared, and what is counted.

pub mod arguments;
pub mod call;
pub mod compare;
mod convert_calls;
pub mod counts;
pub mod delays;
pub mod empty_lists;
mod every_list_calls;
mod figure_calls;
mod grade_calls;
mod hop_set_calls;
pub mod hop_step;
pub mod plan_calls;
mod preferences;
mod reliance_calls;
pub mod series;
mod sheet_calls;
mod steady_calls;
mod turns;
