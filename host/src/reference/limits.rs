//! Safe, average, margin, mixed, the limits of both policies and coast bounds over the positions of the order.

use super::image::accept;
use super::order::Order;
use super::profile::{Profile, Set};
use crate::calls::{refused, Answer, Counts, ABSENT_BOUND, LONGEST_COAST, POLICY_2005, POLICY_2008};

/// How a level is tested against the deadlines to come.
#[derive(Clone, Copy, Debug, PartialEq, Eq)]
pub enum Policy {
    /// Of 2008: once, on the sum mixed of average and safe ones.
    Mixed,
    /// Of 2005: twice, on the average and on the safe sums apart.
    Apart,
}

impl Policy {
    pub const BOTH: [Policy; 2] = [Policy::Mixed, Policy::Apart];

    /// By its year, or 20.
    pub fn of(year: u32) -> Answer<Policy> {
        Policy::BOTH.into_iter().find(|policy| policy.year() == year).ok_or(refused::POLICY)
    }

    /// As a run record's policy is read, which is not judged: of 2005 it is that, else the one of 2008.
    pub fn read(year: u32) -> Policy {
        Policy::of(year).unwrap_or(Policy::Mixed)
    }

    pub fn year(self) -> u32 {
        match self {
            Policy::Mixed => POLICY_2008,
            Policy::Apart => POLICY_2005,
        }
    }
}

/// A profile laid out by position.
#[derive(Clone, Debug)]
pub struct Planned {
    pub n: usize,
    pub levels: usize,
    pub order: Vec<usize>,
    pub deadline: Vec<i64>,
    pub averages: Vec<Vec<i64>>,
    pub worst: Vec<Vec<i64>>,
}

impl Planned {
    pub fn of(profile: &Profile<impl Set>) -> Planned {
        let Order(order) = Order::by_urgency(profile);
        Planned {
            n: profile.n,
            levels: profile.levels,
            deadline: order.iter().map(|&a| profile.deadline(a)).collect(),
            averages: order.iter().map(|&a| profile.averages[a].clone()).collect(),
            worst: order.iter().map(|&a| profile.worst[a].clone()).collect(),
            order,
        }
    }

    /// Worst of i at q, plus worst at level 0 of positions i+1 to k.
    pub fn safe(&self, i: usize, k: usize, q: usize) -> i64 {
        self.worst[i][q] + (i + 1..=k).map(|p| self.worst[p][0]).sum::<i64>()
    }

    /// Sum of averages at q, positions i to k.
    pub fn average(&self, i: usize, k: usize, q: usize) -> i64 {
        (i..=k).map(|p| self.averages[p][q]).sum()
    }

    /// The greatest safe(j,k,q) - average(j,k,q) over j from i to k.
    pub fn margin(&self, i: usize, k: usize, q: usize) -> i64 {
        let over = |j| self.safe(j, k, q) - self.average(j, k, q);
        (i..=k).map(over).max().expect("i is among them")
    }

    pub fn mixed(&self, i: usize, k: usize, q: usize) -> i64 {
        self.average(i, k, q) + self.margin(i, k, q)
    }

    /// The least deadline(k) - sum(i,k,q) over k from i to n-1.
    fn least(&self, i: usize, q: usize, sum: impl Fn(&Planned, usize, usize, usize) -> i64) -> i64 {
        let room = |k| self.deadline[k] - sum(self, i, k, q);
        (i..self.n).map(room).min().expect("i is among them")
    }

    /// That of mixed; or the lesser of that of average and that of safe.
    pub fn limit(&self, policy: Policy, i: usize, q: usize) -> i64 {
        match policy {
            Policy::Mixed => self.least(i, q, Planned::mixed),
            Policy::Apart => self.least(i, q, Planned::average).min(self.least(i, q, Planned::safe)),
        }
    }

    /// All limits, by position and level.
    pub fn limits(&self, policy: Policy) -> Vec<Vec<i64>> {
        (0..self.n).map(|i| (0..self.levels).map(|q| self.limit(policy, i, q)).collect()).collect()
    }

    /// The least, over j from i to i+r-1, of limit(j,q) minus the worst times at q of positions i to j-1.
    pub fn coast_bound(&self, limits: &[Vec<i64>], i: usize, q: usize, r: usize) -> i64 {
        if r > self.n - i {
            return i64::from(ABSENT_BOUND);
        }
        let bound = |j: usize| limits[j][q] - (i..j).map(|p| self.worst[p][q]).sum::<i64>();
        (i..i + r).map(bound).min().expect("r is at least 1")
    }
}

fn narrow(value: i64) -> i32 {
    i32::try_from(value).expect("limits and bounds fit 32 bits")
}

/// The planner.
pub fn plan(
    image: &[u8],
    policy: u32,
    order: &mut [u8],
    limits: &mut [i32],
    worst: &mut [u32],
    bounds: &mut [i32],
) -> Answer<Counts> {
    let profile = accept(image)?;
    let policy = Policy::of(policy)?;
    let (n, levels) = (profile.n, profile.levels);
    let cells = n * levels;
    if order.len() < n || limits.len() < cells || worst.len() < cells || bounds.len() < cells * LONGEST_COAST {
        return Err(refused::ROOM);
    }
    let planned = Planned::of(&profile);
    let all = planned.limits(policy);
    for i in 0..n {
        order[i] = planned.order[i] as u8;
        for q in 0..levels {
            let cell = i * levels + q;
            limits[cell] = narrow(all[i][q]);
            worst[cell] = planned.worst[i][q] as u32;
            for r in 1..=LONGEST_COAST {
                bounds[cell * LONGEST_COAST + r - 1] = narrow(planned.coast_bound(&all, i, q, r));
            }
        }
    }
    Ok(Counts { n, levels, cycle: profile.cycle as u32 })
}
