//! What must follow what, loops, urgency, and the order by urgency.

use super::profile::{Profile, Set};

/// For each action, all actions that must follow it, directly or through others.
#[derive(Clone, Debug, PartialEq, Eq)]
pub struct Follows(Vec<Vec<bool>>);

impl Follows {
    /// Found by a search from each action.
    pub fn of(profile: &Profile<impl Set>) -> Follows {
        Follows((0..profile.n).map(|a| search(profile, a)).collect())
    }

    /// Whether b must follow a.
    pub fn must_follow(&self, a: usize, b: usize) -> bool {
        self.0[a][b]
    }

    /// The actions that must follow themselves, from the lowest up.
    pub fn on_a_loop(&self) -> Vec<usize> {
        (0..self.0.len()).filter(|&a| self.must_follow(a, a)).collect()
    }

    /// The least deadline among the action itself and every action that must follow it.
    pub fn urgency(&self, profile: &Profile<impl Set>, a: usize) -> i64 {
        (0..profile.n)
            .filter(|&b| b == a || self.must_follow(a, b))
            .map(|b| profile.deadline(b))
            .min()
            .expect("the action itself is among them")
    }
}

/// Every action that can be reached from a by one step or more.
fn search(profile: &Profile<impl Set>, a: usize) -> Vec<bool> {
    let mut found = vec![false; profile.n];
    let mut from = vec![a];
    while let Some(here) = from.pop() {
        for (next, found) in found.iter_mut().enumerate() {
            if profile.before(here, next) && !*found {
                *found = true;
                from.push(next);
            }
        }
    }
    found
}

/// The action at each position.
#[derive(Clone, Debug, PartialEq, Eq)]
pub struct Order(pub Vec<usize>);

impl Order {
    /// Next is the ready action of least urgency, the lowest number among equals. There must be no loop.
    pub fn by_urgency(profile: &Profile<impl Set>) -> Order {
        let follows = Follows::of(profile);
        let urgency: Vec<i64> = (0..profile.n).map(|a| follows.urgency(profile, a)).collect();
        let mut order = Vec::new();
        while order.len() < profile.n {
            let next = ready(profile, &order).into_iter().min_by_key(|&a| (urgency[a], a));
            order.push(next.expect("without a loop some action is ready"));
        }
        Order(order)
    }

    /// Every permitted order, for small n.
    pub fn every(profile: &Profile<impl Set>) -> Vec<Order> {
        let mut orders = Vec::new();
        extend(profile, &mut Vec::new(), &mut orders);
        orders
    }

    /// Whether an action ends after its deadline when each takes its worst time at level 0.
    pub fn misses_a_deadline(&self, profile: &Profile<impl Set>) -> bool {
        (0..profile.n).any(|k| {
            let end: i64 = self.0[..=k].iter().map(|&a| profile.worst[a][0]).sum();
            end > profile.deadline(self.0[k])
        })
    }
}

/// The actions that are not done and whose predecessors all are.
fn ready(profile: &Profile<impl Set>, done: &[usize]) -> Vec<usize> {
    (0..profile.n)
        .filter(|a| !done.contains(a))
        .filter(|&a| (0..profile.n).all(|b| !profile.before(b, a) || done.contains(&b)))
        .collect()
}

fn extend(profile: &Profile<impl Set>, done: &mut Vec<usize>, orders: &mut Vec<Order>) {
    if done.len() == profile.n {
        orders.push(Order(done.clone()));
        return;
    }
    for a in ready(profile, done) {
        done.push(a);
        extend(profile, done, orders);
        done.pop();
    }
}
