//! Acts that read late (document 02, "Delayed reading"): the tables of a run by moment, and
//! which moments an act may read.

use super::plan::Router;
use super::tables::Rounds;
use std::ops::RangeInclusive;

/// "no earlier than the start of the round before": how many rounds before its own an act
/// may read.
pub const ROUNDS_BACK: usize = 1;

/// "within twice the highest rank plus three rounds"
pub fn promised_rounds(highest_rank: u64) -> u64 {
    2 * highest_rank + 3
}

/// A run whose acts read late. At moment m its first m acts have been applied.
pub struct DelayedRun {
    /// The table at each moment, two bytes a router.
    tables: Vec<Vec<u8>>,
    /// The moment at which each round starts, that under way being the last.
    starts: Vec<usize>,
    rounds: Rounds,
}

impl DelayedRun {
    pub fn new(start: Vec<u8>) -> Self {
        let rounds = Rounds::new(start.len() / 2);
        DelayedRun { tables: vec![start], starts: vec![0], rounds }
    }

    /// The moment at which the next act is applied.
    pub fn present(&self) -> usize {
        self.tables.len() - 1
    }

    pub fn table(&self) -> &[u8] {
        &self.tables[self.present()]
    }

    /// The rounds that have ended.
    pub fn ended(&self) -> u64 {
        self.rounds.whole
    }

    /// The moments that the next act may read, where it may read so many rounds before its
    /// own: up to the act itself, and none before the start of the run.
    pub fn readable(&self, rounds_back: usize) -> RangeInclusive<usize> {
        let round = self.starts.len() - 1;
        self.starts[round.saturating_sub(rounds_back)]..=self.present()
    }

    /// The entry of a router at a moment.
    pub fn entry(&self, moment: usize, router: Router) -> &[u8] {
        &self.tables[moment][2 * router..2 * router + 2]
    }

    /// The table handed to an act: of each router the entry at its moment.
    pub fn handed(&self, moments: &[usize]) -> Vec<u8> {
        let entries = moments.iter().enumerate().flat_map(|(router, &moment)| self.entry(moment, router));
        entries.copied().collect()
    }

    /// Applies an act of a router, which holds then what it holds in `left`, the table handed
    /// to it after its activation. No other entry changes.
    pub fn apply(&mut self, router: Router, left: &[u8]) {
        let mut table = self.table().to_vec();
        let own = 2 * router..2 * router + 2;
        table[own.clone()].copy_from_slice(&left[own]);
        self.tables.push(table);
        let before = self.ended();
        self.rounds.count(router);
        if self.ended() > before {
            self.starts.push(self.present());
        }
    }
}
