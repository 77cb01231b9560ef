//! What must hold of the oracle and of the comparison: the oracle gives the answers that the
//! papers state, its answers on random plans and sheets follow from one another, damage is
//! refused as it should be, and the comparison finds each known fault.

mod damage;
mod faults;
mod oracle;
mod papers;

/// All that must hold does, or the first thing that does not.
type Outcome = Result<(), String>;

/// The seed of all that is drawn.
const SEED: u64 = 4456;
