//! A profile as numbers, and the refusals 6 to 9 that an image and a writing share.

use super::order::{Follows, Order};
use crate::calls::{refused, Counts, Refused, LAST_CLOCK, LONGEST_TIME};
use std::collections::BTreeSet;

/// A set of actions.
pub trait Set {
    fn has(&self, action: usize) -> bool;
}

/// The bits of a number.
impl Set for u64 {
    fn has(&self, action: usize) -> bool {
        self >> action & 1 == 1
    }
}

/// The numbers themselves, where there are too many for the bits of one.
impl Set for BTreeSet<usize> {
    fn has(&self, action: usize) -> bool {
        self.contains(&action)
    }
}

/// Masks and deadlines by action (deadlines as written, 0 for the cycle), times by action and level.
#[derive(Clone, Debug, PartialEq, Eq)]
pub struct Profile<Mask = u64> {
    pub n: usize,
    pub levels: usize,
    pub cycle: i64,
    pub masks: Vec<Mask>,
    pub deadlines: Vec<i64>,
    pub averages: Vec<Vec<i64>>,
    pub worst: Vec<Vec<i64>>,
}

/// Whether n, L and cycle are inside their ranges.
pub fn counts_in_range(counts: Counts) -> bool {
    shape_in_range(counts.n, counts.levels) && (1..=LAST_CLOCK).contains(&counts.cycle)
}

/// Whether n and L are.
pub fn shape_in_range(n: usize, levels: usize) -> bool {
    (1..=64).contains(&n) && (1..=8).contains(&levels)
}

impl<Mask: Set> Profile<Mask> {
    /// The deadline that counts: 0 stands for the cycle length.
    pub fn deadline(&self, action: usize) -> i64 {
        match self.deadlines[action] {
            0 => self.cycle,
            written => written,
        }
    }

    /// Whether action b is named in the mask of a.
    pub fn before(&self, b: usize, a: usize) -> bool {
        self.masks[a].has(b)
    }

    /// 9, of a profile without a loop.
    pub fn unfit(&self) -> bool {
        Order::by_urgency(self).misses_a_deadline(self)
    }
}

impl Profile {
    /// The least of 6, 7, 8, 9 that applies.
    pub fn refusal(&self) -> Option<Refused> {
        self.refusal_but_unfit().or_else(|| self.unfit().then_some(refused::UNFIT))
    }

    /// The least of 6, 7, 8 that applies to any action, with the lowest that it applies to.
    pub fn refusal_but_unfit(&self) -> Option<Refused> {
        [refused::RANGE, refused::TABLE, refused::LOOP]
            .into_iter()
            .find_map(|refused| self.at_fault(refused).first().map(|&a| refused.at(a)))
    }

    /// All actions that 6, 7 or 8 applies to, from the lowest up.
    pub fn at_fault(&self, refused: Refused) -> Vec<usize> {
        let those = |so: &dyn Fn(usize) -> bool| (0..self.n).filter(|&a| so(a)).collect();
        match refused.number {
            6 => those(&|a| self.out_of_range(a)),
            7 => those(&|a| self.breaks_table_rule(a)),
            8 => Follows::of(self).on_a_loop(),
            _ => Vec::new(),
        }
    }

    fn out_of_range(&self, a: usize) -> bool {
        let mut times = self.averages[a].iter().chain(&self.worst[a]);
        self.deadlines[a] > self.cycle
            || (self.n..64).any(|b| self.before(b, a))
            || times.any(|&time| time > i64::from(LONGEST_TIME))
    }

    fn breaks_table_rule(&self, a: usize) -> bool {
        let falls = |row: &[i64]| (1..self.levels).any(|q| row[q] < row[q - 1]);
        let (averages, worst) = (&self.averages[a], &self.worst[a]);
        (0..self.levels).any(|q| averages[q] > worst[q]) || falls(averages) || falls(worst)
    }
}
