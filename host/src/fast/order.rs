//! The order by urgency over 64-bit sets; refusals 8 and 9.

use crate::calls::{refused, Answer};

/// What the order reads, by action. Deadlines are those that count, worst times those of level 0.
pub(super) struct Actions {
    pub masks: [u64; 64],
    pub deadlines: [u32; 64],
    pub worst: [u32; 64],
}

impl Default for Actions {
    fn default() -> Actions {
        Actions { masks: [0; 64], deadlines: [0; 64], worst: [0; 64] }
    }
}

/// The action at each position.
pub(super) struct Arranged(pub [u8; 64]);

/// Takes the lowest member out of a set that has one.
fn take_lowest(set: &mut u64) -> usize {
    let lowest = set.trailing_zeros() as usize;
    *set &= *set - 1;
    lowest
}

/// 0 to 63.
const BY_NUMBER: [u8; 64] = {
    let mut numbers = [0; 64];
    let mut a = 0;
    while a < 64 {
        numbers[a] = a as u8;
        a += 1;
    }
    numbers
};

/// The actions in a line, each after its predecessors; none where there is a loop. From an action back to one before it that has no place
/// yet, and on; where none is left the action takes the next place, and it goes back to the one it came from.
fn line_up(masks: &[u64; 64], n: usize) -> Option<[u8; 64]> {
    let (mut line, mut path) = ([0; 64], [0u8; 64]);
    let mut left = u64::MAX >> (64 - n);
    let (mut depth, mut placed, mut a) = (0, 0, 0);
    while left != 0 {
        let before = masks[a] & left;
        if before != 0 {
            depth += 1;
            if depth == n {
                return None;
            }
            a = before.trailing_zeros() as usize;
            path[depth & 63] = a as u8;
        } else {
            left &= !(1 << a);
            line[placed & 63] = a as u8;
            placed += 1;
            if depth != 0 {
                depth -= 1;
                a = path[depth & 63] as usize & 63;
            } else if left != 0 {
                a = left.trailing_zeros() as usize;
                path[0] = a as u8;
            }
        }
    }
    Some(line)
}

/// Hands an urgency on to a set of actions. Where there are many, those are passed over that come before one that has got it: at its turn it
/// hands it on to them.
fn hand_on(masks: &[u64; 64], mut to: u64, handed: u32, urgency: &mut [u32; 64]) {
    let pairs = to & to >> 1;
    if pairs & pairs >> 2 == 0 {
        while to != 0 {
            let before = &mut urgency[take_lowest(&mut to)];
            *before = handed.min(*before);
        }
        return;
    }
    let mut give = |a: usize, to: u64| {
        urgency[a] = handed.min(urgency[a]);
        to & !(masks[a] | 1 << a)
    };
    while to != 0 {
        to = give(to.ilog2() as usize, to);
        if to != 0 {
            to = give(to.trailing_zeros() as usize, to);
        }
    }
}

/// The urgency of each action, in one pass from the last of the line to the first; none where there is a loop.
fn urgencies(actions: &Actions, n: usize) -> Option<[u32; 64]> {
    let line = line_up(&actions.masks, n)?;
    let mut urgency = actions.deadlines;
    for &a in line[..n].iter().rev() {
        let a = a as usize & 63;
        hand_on(&actions.masks, actions.masks[a], urgency[a], &mut urgency);
    }
    Some(urgency)
}

/// Takes the least urgent out of a set that has a member, of several the lowest.
fn take_least(set: &mut u64, urgency: &[u32; 64]) -> usize {
    let mut rest = *set;
    let mut least = take_lowest(&mut rest);
    while rest != 0 {
        let a = take_lowest(&mut rest);
        if urgency[a] < urgency[least] {
            least = a;
        }
    }
    *set &= !(1 << least);
    least
}

/// Whether the order is that of the numbers: all deadlines are the same and every predecessor has a lower number.
fn by_number(actions: &Actions, n: usize) -> bool {
    let (mut differ, mut later) = (0, 0);
    for (a, (&mask, &deadline)) in actions.masks[..n].iter().zip(&actions.deadlines).enumerate() {
        differ |= deadline ^ actions.deadlines[0];
        later |= mask >> a;
    }
    differ == 0 && later == 0
}

/// The order by urgency, or the refusal 8 or 9.
pub(super) fn arrange(actions: &Actions, n: usize) -> Answer<Arranged> {
    let (arranged, unfit) = ordered(actions, n)?;
    if unfit {
        return Err(refused::UNFIT);
    }
    Ok(arranged)
}

/// The order by urgency, with whether it is unfit, or the refusal 8.
#[inline(always)]
pub(super) fn ordered(actions: &Actions, n: usize) -> Answer<(Arranged, bool)> {
    if by_number(actions, n) {
        // The last action ends last, and all deadlines are its own.
        let end: u32 = actions.worst[..n].iter().sum();
        return Ok((Arranged(BY_NUMBER), end > actions.deadlines[0]));
    }
    by_urgency(actions, n).ok_or_else(|| refused::LOOP.at(lowest_on_a_loop(&actions.masks[..n])))
}

/// The lowest action that must follow itself, where there is one: by all that comes before each, at any remove.
#[cold]
fn lowest_on_a_loop(masks: &[u64]) -> usize {
    let mut before = [0; 64];
    before[..masks.len()].copy_from_slice(masks);
    for through in 0..64 {
        let further = before[through];
        for set in before.iter_mut().filter(|set| **set >> through & 1 == 1) {
            *set |= further;
        }
    }
    (0..64).find(|&a| before[a] >> a & 1 == 1).expect("a loop")
}

/// Each action that is not ready waits with one of its predecessors still to be done; with a loop some wait for ever. Where all deadlines
/// are one the lowest of the ready ones is next.
fn by_urgency(actions: &Actions, n: usize) -> Option<(Arranged, bool)> {
    let (masks, deadlines) = (&actions.masks[..n], &actions.deadlines[..n]);
    let same = deadlines.iter().all(|&deadline| deadline == deadlines[0]);
    let urgency = if same { [0; 64] } else { urgencies(actions, n)? };
    let mut waiting = [0u64; 64];
    let (mut ready, mut done) = (0u64, 0u64);
    for (a, &mask) in masks.iter().enumerate() {
        if mask == 0 {
            ready |= 1 << a;
        } else {
            waiting[mask.ilog2() as usize] |= 1 << a;
        }
    }
    let mut order = [0u8; 64];
    let (mut clock, mut unfit) = (0u32, false);
    for (i, place) in order[..n].iter_mut().enumerate() {
        if ready == 0 {
            return None;
        }
        let action = if same { take_lowest(&mut ready) } else { take_least(&mut ready, &urgency) };
        *place = action as u8;
        done |= 1 << action;
        clock += actions.worst[action];
        unfit |= clock > actions.deadlines[action];
        let mut freed = waiting[action];
        while freed != 0 {
            let a = take_lowest(&mut freed);
            let rest = actions.masks[a] & !done;
            if rest == 0 {
                ready |= 1 << a;
            } else {
                // Any will do; one that changes from step to step is seldom the next again.
                let turn = i * 29 % 64;
                let other = rest.rotate_right(turn as u32).trailing_zeros() as usize + turn;
                waiting[other % 64] |= 1 << a;
            }
        }
    }
    Some((Arranged(order), unfit))
}
