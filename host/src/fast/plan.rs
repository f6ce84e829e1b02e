//! The planner: limits and coast bounds from the last position back.

use super::image::{deadline_word, examine, Pair, Shape};
use super::order::Arranged;
use crate::calls::{refused, Answer, Counts, ABSENT_BOUND, LONGEST_COAST, POLICY_2005, POLICY_2008};

/// Whether it is the year of a policy.
#[inline(always)]
pub(super) fn known(policy: u32) -> bool {
    matches!(policy, POLICY_2005 | POLICY_2008)
}

/// 20, or whether the year is that of the two tests apart.
#[inline(always)]
pub(super) fn apart(policy: u32) -> Answer<bool> {
    if known(policy) {
        Ok(policy == POLICY_2005)
    } else {
        Err(refused::POLICY)
    }
}

/// Order, limits, worst times by position and coast bounds.
pub fn plan(
    image: &[u8],
    policy: u32,
    order: &mut [u8],
    limits: &mut [i32],
    worst: &mut [u32],
    bounds: &mut [i32],
) -> Answer<Counts> {
    let (shape, arranged) = examine(image)?;
    fill(image, shape, apart(policy)?, &arranged, order, limits, worst, bounds)?;
    Ok(shape.counts())
}

/// The tables of an accepted image, or 17.
#[allow(clippy::too_many_arguments)]
pub(super) fn fill(
    image: &[u8],
    shape: Shape,
    apart: bool,
    Arranged(arranged): &Arranged,
    order: &mut [u8],
    limits: &mut [i32],
    worst: &mut [u32],
    bounds: &mut [i32],
) -> Answer<()> {
    let (n, cells) = (shape.n, shape.cells());
    if order.len() < n || limits.len() < cells || worst.len() < cells || bounds.len() < cells * LONGEST_COAST {
        return Err(refused::ROOM);
    }
    order[..n].copy_from_slice(&arranged[..n]);
    let (order, bounds) = (&order[..n], &mut bounds[..cells * LONGEST_COAST]);
    let (limits, worst) = (&mut limits[..cells], &mut worst[..cells]);
    match apart {
        false => rows::<false>(image, shape, order, limits, worst, bounds),
        true => rows::<true>(image, shape, order, limits, worst, bounds),
    }
    Ok(())
}

/// limit(i,q) = min(min(deadline(i), after(0)) - worst(i,q), min(deadline(i), after(q)) - average(i,q)); past the end there is no limit. The second
/// part is the average test. Above level 0 it is what goes on to the row before where the tests are apart; else the limit does, and the deadline needs no
/// second look, as it is in the first part with a worst time. At level 0 the limit goes on in both.
fn rows<const APART: bool>(
    image: &[u8],
    shape: Shape,
    order: &[u8],
    limits: &mut [i32],
    worst: &mut [u32],
    bounds: &mut [i32],
) {
    let levels = shape.levels.min(8);
    let mut after = [i32::MAX; 8];
    let mut bounds_after: &[i32] = &[];
    let places = order.iter().zip(limits.chunks_exact_mut(levels)).zip(worst.chunks_exact_mut(levels));
    for (((&action, limits), worst), bounds) in places.zip(bounds.chunks_exact_mut(levels * LONGEST_COAST)).rev() {
        let record = shape.record(image, action as usize);
        let deadline = shape.deadline(deadline_word(record) >> 2) as i32;
        let latest = deadline.min(after[0]);
        for level in 0..levels {
            let pair = Pair::of(record, level);
            let next = if APART { deadline.min(after[level]) } else { after[level] };
            let by_average = next - pair.average() as i32;
            let limit = by_average.min(latest - pair.worst() as i32);
            after[level] = if APART && level > 0 { by_average } else { limit };
            limits[level] = limit;
            worst[level] = pair.worst();
        }
        coast_row(limits, worst, bounds_after, bounds);
        bounds_after = bounds;
    }
}

/// bound(i,q,r) = min(limit(i,q), bound(i+1,q,r-1) - worst(i,q)).
fn coast_row(limits: &[i32], worst: &[u32], after: &[i32], bounds: &mut [i32]) {
    let cells = bounds.chunks_exact_mut(LONGEST_COAST).zip(limits.iter().zip(worst));
    if after.is_empty() {
        for (bounds, (&limit, _)) in cells {
            bounds.fill(ABSENT_BOUND);
            bounds[0] = limit;
        }
        return;
    }
    for ((bounds, (&limit, &worst)), after) in cells.zip(after.chunks_exact(LONGEST_COAST)) {
        bounds[0] = limit;
        for (bound, &next) in bounds[1..].iter_mut().zip(&after[..LONGEST_COAST - 1]) {
            // An absent bound stays as it is: nothing is taken from it, and the limit is never below it.
            let less = if next == ABSENT_BOUND { 0 } else { worst as i32 };
            *bound = limit.min(next - less);
        }
    }
}
