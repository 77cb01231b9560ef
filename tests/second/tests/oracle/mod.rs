//! What must hold of the oracle's answers on random plans and sheets.

mod conversions;
mod delayed_reading;
mod empty_lists;
mod every_lists;
mod explained_pairs;
mod grades;
mod hop_sets;
mod hop_steps;
mod least_sums;
mod steady_tables;
mod verdicts;
