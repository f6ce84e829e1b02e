//! A body repeated: one body planned, and each limit from what is summed up of its rest and of the whole bodies after it. What these add at a level
//! is worked out once for all positions of a body.

use super::image::{gather, Pair, Shape};
use super::order::{ordered, Arranged};
use super::plan::{apart, known};
use super::run::{shape_fits, Decision};
use crate::calls::{
    refused, Answer, Body, BodyDried, BodyRun, BodyTables, Given, ABSENT_LONG, LAST_CLOCK, LONGEST_COAST, LONGEST_TIME,
    MOST_ACTIONS, MOST_LEVELS, MOST_REPEATS, POLICY_2005, SUMMARY_NUMBERS,
};

// ---- planning

/// Refusals 1 to 8, 19, 9; the shape and the order of an accepted body.
fn examine(image: &[u8], repeats: u32) -> Answer<(Shape, Arranged)> {
    let (shape, actions) = gather(image)?;
    let (arranged, _) = ordered(&actions, shape.n)?;
    let differ = actions.deadlines[..shape.n].iter().fold(0, |all, deadline| all | (deadline ^ shape.cycle));
    if differ != 0 || repeats.wrapping_sub(1) >= MOST_REPEATS {
        return Err(refused::REPEATS);
    }
    // Its order is the body's, repeat by repeat, and the last action ends last.
    let end: u64 = actions.worst[..shape.n].iter().map(|&worst| u64::from(worst)).sum();
    if u64::from(repeats) * end > u64::from(shape.cycle) {
        return Err(refused::UNFIT);
    }
    Ok((shape, arranged))
}

/// From the last position back: A, W and V add up; M is the greater of this worst time before the others at level 0, and this average before their M.
/// Where the tests are apart the first of these is the third number.
fn sum_up<const APART: bool>(image: &[u8], shape: Shape, order: &[u8], summaries: &mut [u32], worst: &mut [u32]) {
    let levels = shape.levels.min(8);
    let (mut averages, mut mixes, mut worsts, mut lowest) = ([0u32; 8], [0u32; 8], [0u32; 8], 0);
    let rows = summaries.chunks_exact_mut(levels * SUMMARY_NUMBERS).zip(worst.chunks_exact_mut(levels));
    for (&action, (summaries, worst)) in order.iter().zip(rows).rev() {
        let record = shape.record(image, action as usize);
        let after = lowest;
        lowest += Pair::of(record, 0).worst();
        for (level, entry) in summaries.chunks_exact_mut(SUMMARY_NUMBERS).enumerate().take(levels) {
            let pair = Pair::of(record, level);
            averages[level] += pair.average();
            let safe = pair.worst() + after;
            mixes[level] = if APART { safe } else { safe.max(pair.average() + mixes[level]) };
            worsts[level] += pair.worst();
            entry.copy_from_slice(&[averages[level], lowest, mixes[level], worsts[level]]);
            worst[level] = pair.worst();
        }
    }
}

/// The tables of an accepted body, which are as long as it says.
fn fill(image: &[u8], shape: Shape, apart: bool, order: &[u8], summaries: &mut [u32], worst: &mut [u32]) {
    match apart {
        false => sum_up::<false>(image, shape, order, summaries, worst),
        true => sum_up::<true>(image, shape, order, summaries, worst),
    }
}

/// Order, summaries of the rest of the body and worst times by position.
pub fn plan_body(
    image: &[u8],
    repeats: u32,
    policy: u32,
    order: &mut [u8],
    summaries: &mut [u32],
    worst: &mut [u32],
) -> Answer<Body> {
    let (shape, Arranged(arranged)) = examine(image, repeats)?;
    let apart = apart(policy)?;
    let (n, cells) = (shape.n, shape.cells());
    if order.len() < n || summaries.len() < cells * SUMMARY_NUMBERS || worst.len() < cells {
        return Err(refused::ROOM);
    }
    order[..n].copy_from_slice(&arranged[..n]);
    let (summaries, worst) = (&mut summaries[..cells * SUMMARY_NUMBERS], &mut worst[..cells]);
    fill(image, shape, apart, &order[..n], summaries, worst);
    Ok(Body { n: n as u32, levels: shape.levels as u32, cycle: shape.cycle, repeats, policy })
}

// ---- limits and bounds

/// What the whole bodies after one add at a level: the first to the third number, the second to A; the greater sum is what the limit takes off the
/// cycle. Mixed, the second adds their M; apart, their averages.
#[derive(Clone, Copy)]
struct After<const APART: bool> {
    to_mix: i64,
    to_average: i64,
}

/// What an entry takes of the summaries.
type Entry = [u32; SUMMARY_NUMBERS];

#[inline(always)]
fn entry(summaries: &[u32], cell: usize) -> &Entry {
    let at = cell * SUMMARY_NUMBERS;
    summaries[at..at + SUMMARY_NUMBERS].try_into().expect("four numbers")
}

impl<const APART: bool> After<APART> {
    #[inline(always)]
    fn of(summaries: &[u32], level: usize, bodies: u32) -> Self {
        let &[average, lowest, mix, _] = entry(summaries, level);
        let bodies = i64::from(bodies);
        let greater = i64::from(average.max(lowest));
        let to_average = if APART {
            bodies * i64::from(average)
        } else if bodies == 0 {
            // Without a body after it no sum of the second kind counts.
            i64::MIN / 2
        } else {
            i64::from(mix) + (bodies - 1) * greater
        };
        After { to_mix: bodies * i64::from(lowest), to_average }
    }

    /// What is taken off the cycle from an entry's position on.
    #[inline(always)]
    fn taken(self, &[average, _, mix, _]: &Entry) -> i64 {
        (i64::from(mix) + self.to_mix).max(i64::from(average) + self.to_average)
    }
}

/// 3 and 19, which are all that a record is held to.
#[inline(always)]
fn count_refusal(body: &Body) -> Answer<()> {
    if !shape_fits(body.n as usize, body.levels as usize) || body.cycle.wrapping_sub(1) >= LAST_CLOCK {
        return Err(refused::COUNT);
    }
    if body.repeats.wrapping_sub(1) >= MOST_REPEATS {
        return Err(refused::REPEATS);
    }
    Ok(())
}

/// 3, 19 and 20.
#[inline(always)]
fn body_refusal(body: &Body) -> Answer<()> {
    count_refusal(body)?;
    if known(body.policy) {
        Ok(())
    } else {
        Err(refused::POLICY)
    }
}

/// The limit at a position of all repeats and a level.
pub fn body_limit(body: Body, summaries: &[u32], position: usize, level: usize) -> Answer<i64> {
    body_refusal(&body)?;
    let (n, levels) = (body.n as usize, body.levels as usize);
    if summaries.len() < n * levels * SUMMARY_NUMBERS {
        return Err(refused::ROOM);
    }
    if position >= n * body.repeats as usize || level >= levels {
        return Err(refused::READING);
    }
    let (repeat, place) = (position as u32 / body.n, position as u32 % body.n);
    let (entry, bodies) = (entry(summaries, place as usize * levels + level), body.repeats - 1 - repeat);
    let taken = match body.policy {
        POLICY_2005 => After::<true>::of(summaries, level, bodies).taken(entry),
        _ => After::<false>::of(summaries, level, bodies).taken(entry),
    };
    Ok(i64::from(body.cycle) - taken)
}

/// What a coast at a level must have room for at its last position: the worst times before that, as V has them, 0 at the least, and what is taken off
/// from it on.
#[inline(always)]
fn last_reach<const APART: bool>(
    body: Body,
    summaries: &[u32],
    place: usize,
    bodies: u32,
    level: usize,
    length: usize,
) -> i64 {
    let levels = body.levels as usize;
    let ahead = (place + length - 1) as u32;
    // Of a body that is no shorter than a coast at most one is passed: there is nothing to divide.
    let passed = if ahead < body.n {
        0
    } else if LONGEST_COAST as u32 <= body.n {
        1
    } else {
        ahead / body.n
    };
    let last = (ahead - passed * body.n) as usize;
    let worst_in = |&[.., worst]: &Entry| i64::from(worst);
    let (here, there) = (entry(summaries, place * levels + level), entry(summaries, last * levels + level));
    let spent = worst_in(here) + i64::from(passed) * worst_in(entry(summaries, level)) - worst_in(there);
    spent.max(0) + After::<APART>::of(summaries, level, bodies - passed).taken(there)
}

/// The coast bound there for a length: the least of the limits on the way, each less the worst times before it; at the top level, where the coast is
/// as long as there may be, that by its ends if it is greater.
pub fn body_bound(
    body: Body,
    summaries: &[u32],
    worst: &[u32],
    position: usize,
    level: usize,
    length: usize,
) -> Answer<i64> {
    body_refusal(&body)?;
    let (n, levels) = (body.n as usize, body.levels as usize);
    let (cells, positions) = (n * levels, n * body.repeats as usize);
    if summaries.len() < cells * SUMMARY_NUMBERS || worst.len() < cells {
        return Err(refused::ROOM);
    }
    if position >= positions || level >= levels || length.wrapping_sub(1) >= LONGEST_COAST {
        return Err(refused::READING);
    }
    if positions - position < length {
        return Ok(ABSENT_LONG);
    }
    let (summaries, worst) = (&summaries[..cells * SUMMARY_NUMBERS], &worst[..cells]);
    Ok(match body.policy {
        POLICY_2005 => bound::<true>(body, summaries, worst, position, level, length),
        _ => bound::<false>(body, summaries, worst, position, level, length),
    })
}

/// Of a coast that is there; the summaries and the worst times are as long as the body says.
fn bound<const APART: bool>(
    body: Body,
    summaries: &[u32],
    worst: &[u32],
    position: usize,
    level: usize,
    length: usize,
) -> i64 {
    let (n, levels) = (body.n as usize, body.levels as usize);
    let positions = n * body.repeats as usize;
    let (repeat, place) = (position as u32 / body.n, position as u32 % body.n);
    let (mut bodies, mut place) = (body.repeats - 1 - repeat, place as usize);
    let by_ends = level + 1 == levels && length == LONGEST_COAST.min(positions - position);
    let ends = if by_ends {
        let first = After::<APART>::of(summaries, level, bodies).taken(entry(summaries, place * levels + level));
        first.max(last_reach::<APART>(body, summaries, place, bodies, level, length))
    } else {
        i64::MAX
    };
    let (mut most, mut spent, mut left) = (i64::MIN, 0, length);
    loop {
        let after = After::<APART>::of(summaries, level, bodies);
        let end = n.min(place + left);
        left -= end - place;
        for cell in (place..end).map(|at| at * levels + level) {
            most = most.max(spent + after.taken(entry(summaries, cell)));
            spent += i64::from(worst[cell]);
        }
        if left == 0 {
            return i64::from(body.cycle) - most.min(ends);
        }
        (place, bodies) = (0, bodies - 1);
    }
}

// ---- the run

/// What the rest of a body may come to: the third number at most `mix`, and the averages at most `average`, which mixed are of no account without a
/// body after it.
#[derive(Clone, Copy)]
struct Room<const APART: bool> {
    mix: i64,
    average: i64,
}

/// More than any average.
const AMPLE: i64 = i64::MAX / 2;

impl<const APART: bool> Room<APART> {
    /// Before so many bodies, of what is left of the cycle.
    #[inline(always)]
    fn before(summaries: &[u32], level: usize, bodies: u32, left: i64) -> Self {
        let after = After::<APART>::of(summaries, level, bodies);
        let average = if !APART && bodies == 0 { AMPLE } else { left - after.to_average };
        Room { mix: left - after.to_mix, average }
    }

    /// Before one body fewer: it gives back what it took.
    #[inline(always)]
    fn nearer(self, summaries: &[u32], level: usize, bodies: u32) -> Self {
        let &[average, lowest, ..] = entry(summaries, level);
        let average = if APART {
            self.average + i64::from(average)
        } else if bodies == 1 {
            AMPLE
        } else {
            self.average + i64::from(average.max(lowest))
        };
        Room { mix: self.mix + i64::from(lowest), average }
    }

    /// From a worst time later on.
    #[inline(always)]
    fn later(self, worst: u32) -> Self {
        Room { mix: self.mix - i64::from(worst), average: self.average - i64::from(worst) }
    }

    #[inline(always)]
    fn holds(self, &[average, _, mix, _]: &Entry) -> bool {
        i64::from(average) <= self.average && i64::from(mix) <= self.mix
    }
}

/// A decision at a place of a body with so many bodies after it. The summaries and the worst times are as long as the body says.
#[inline(always)]
fn decide<const APART: bool>(
    body: Body,
    summaries: &[u32],
    worst: &[u32],
    place: usize,
    bodies: u32,
    clock: u64,
) -> Decision {
    let levels = body.levels as usize;
    let left = i64::from(body.cycle) - clock as i64;
    for level in (0..levels).rev() {
        let own = Room::<APART>::before(summaries, level, bodies, left);
        if own.holds(entry(summaries, place * levels + level)) {
            let n = body.n as usize;
            let most = (n - place + bodies as usize * n).min(LONGEST_COAST);
            let grant = if level + 1 < levels {
                let above = Room::<APART>::before(summaries, level + 1, bodies, left);
                coast::<true, APART>(body, summaries, worst, place, bodies, level, own, above, most)
            } else if last_reach::<APART>(body, summaries, place, bodies, level, most) <= left {
                // The longest by its ends: the level fits at the first of them already.
                most as u32
            } else {
                coast::<false, APART>(body, summaries, worst, place, bodies, level, own, own, most)
            };
            return Decision { level, late: false, grant };
        }
    }
    Decision { level: 0, late: true, grant: 1 }
}

/// The actions up to the first that could begin too late for the level, or at which the one above fits, `most` of them at the most; read at each
/// position no coast past it qualifies. The first is known to be none. It is walked body by body, with `rest` still to be looked at.
#[inline(always)]
#[allow(clippy::too_many_arguments)]
fn coast<const ABOVE: bool, const APART: bool>(
    body: Body,
    summaries: &[u32],
    worst: &[u32],
    place: usize,
    mut bodies: u32,
    level: usize,
    mut own: Room<APART>,
    mut above: Room<APART>,
    most: usize,
) -> u32 {
    let levels = body.levels as usize;
    let cells = body.n as usize * levels;
    let mut cell = place * levels + level;
    let mut rest = most - 1;
    own = own.later(worst[cell]);
    cell += levels;
    while 0 < rest {
        if cell >= cells {
            own = own.nearer(summaries, level, bodies);
            if ABOVE {
                above = above.nearer(summaries, level + 1, bodies);
            }
            bodies -= 1;
            cell = level;
        }
        let stop = (cell + rest * levels).min(cells + level);
        while cell < stop {
            if !own.holds(entry(summaries, cell)) || ABOVE && above.holds(entry(summaries, cell + 1)) {
                return (most - rest) as u32;
            }
            own = own.later(worst[cell]);
            cell += levels;
            rest -= 1;
        }
    }
    most as u32
}

fn in_range(run: &BodyRun) -> bool {
    let body = run.body;
    // 64-bit sums: any field may hold any value.
    let reached = u64::from(run.position) + u64::from(run.running);
    let positions = u64::from(body.n) * u64::from(body.repeats);
    count_refusal(&body).is_ok()
        && run.clock <= u64::from(LAST_CLOCK)
        && run.level < body.levels
        && run.left <= 15
        && u64::from(run.left) + reached <= positions
        && u64::from(run.decisions) <= reached
}

/// A start, of zero actions with a refusal.
pub fn body_start(run: &mut BodyRun, body: Body) -> u8 {
    let refusal = body_refusal(&body);
    let body = if refusal.is_ok() { body } else { Body::default() };
    *run = BodyRun { body, ..BodyRun::default() };
    refusal.err().map_or(0, |refused| refused.number)
}

/// The next action and its level.
pub fn body_ask(run: &mut BodyRun, tables: &BodyTables) -> Answer<Given> {
    if !in_range(run) {
        return Err(refused::TURN);
    }
    let body = run.body;
    let cells = body.n as usize * body.levels as usize;
    let &BodyTables { order, summaries, worst_by_position: worst } = tables;
    if order.len() < body.n as usize || summaries.len() < cells * SUMMARY_NUMBERS || worst.len() < cells {
        return Err(refused::ROOM);
    }
    if run.running {
        return Err(refused::TURN);
    }
    if run.position == body.n * body.repeats {
        return Err(refused::FINISHED);
    }
    let (repeat, place) = (run.position / body.n, run.position % body.n);
    let action = run.position - place + u32::from(order[place as usize]);
    run.running = true;
    if run.left > 0 {
        run.left -= 1;
        return Ok(Given { action, level: run.level, decided: false, late: false });
    }
    let (summaries, worst) = (&summaries[..cells * SUMMARY_NUMBERS], &worst[..cells]);
    let (place, bodies) = (place as usize, body.repeats - 1 - repeat);
    // One that is not known is the mixed one.
    let decision = match body.policy {
        POLICY_2005 => decide::<true>(body, summaries, worst, place, bodies, run.clock),
        _ => decide::<false>(body, summaries, worst, place, bodies, run.clock),
    };
    run.level = decision.level as u32;
    run.left = (decision.grant - 1) as u8;
    run.decisions += 1;
    run.late |= decision.late;
    Ok(Given { action, level: run.level, decided: true, late: decision.late })
}

/// The end of the running action.
pub fn body_report(run: &mut BodyRun, clock: u32, worst: &[u32]) -> u8 {
    if !in_range(run) {
        return refused::TURN.number;
    }
    let body = run.body;
    if worst.len() < body.n as usize * body.levels as usize {
        return refused::ROOM.number;
    }
    if !run.running {
        return refused::TURN.number;
    }
    if u64::from(clock) < run.clock {
        return refused::BACK.number;
    }
    if clock > LAST_CLOCK {
        return refused::CLOCK.number;
    }
    let cell = run.position % body.n * body.levels + run.level;
    if clock - run.clock as u32 > worst[cell as usize] {
        run.overrun = true;
        run.left = 0;
    }
    run.position += 1;
    run.clock = u64::from(clock);
    run.running = false;
    0
}

// ---- the dry run

/// A whole cycle from an image.
pub fn body_dry_frame(
    image: &[u8],
    repeats: u32,
    policy: u32,
    durations: &[u32],
    order: &mut [u8],
    given: &mut [u8],
    marks: &mut [u8],
) -> Answer<BodyDried> {
    const CELLS: usize = MOST_ACTIONS * MOST_LEVELS;
    let (shape, Arranged(arranged)) = examine(image, repeats)?;
    let apart = apart(policy)?;
    let (n, levels, cells) = (shape.n, shape.levels, shape.cells());
    let positions = n * repeats as usize;
    let rooms_short = order.len() < n || given.len() < positions || marks.len() < positions;
    if rooms_short || durations.len() < positions * levels {
        return Err(refused::ROOM);
    }
    let durations = &durations[..positions * levels];
    if durations.iter().fold(0, |all, duration| all | duration) > LONGEST_TIME {
        return Err(refused::DURATION);
    }
    let (mut summaries, mut worst) = ([0; CELLS * SUMMARY_NUMBERS], [0; CELLS]);
    let (summaries, worst) = (&mut summaries[..cells * SUMMARY_NUMBERS], &mut worst[..cells]);
    order[..n].copy_from_slice(&arranged[..n]);
    fill(image, shape, apart, &order[..n], summaries, worst);
    let body = Body { n: n as u32, levels: levels as u32, cycle: shape.cycle, repeats, policy };
    let (given, marks) = (&mut given[..positions], &mut marks[..positions]);
    Ok(match apart {
        false => run::<false>(body, summaries, worst, durations, given, marks),
        true => run::<true>(body, summaries, worst, durations, given, marks),
    })
}

/// The cycle over planned tables.
fn run<const APART: bool>(
    body: Body,
    summaries: &[u32],
    worst: &[u32],
    durations: &[u32],
    given: &mut [u8],
    marks: &mut [u8],
) -> BodyDried {
    let (n, levels) = (body.n as usize, body.levels as usize);
    let mut cycle = BodyDried { positions: body.n * body.repeats, ..BodyDried::default() };
    let (mut i, mut place, mut bodies) = (0, 0, body.repeats - 1);
    while i < given.len() {
        let Decision { level, late, grant } = decide::<APART>(body, summaries, worst, place, bodies, cycle.end);
        cycle.decisions += 1;
        cycle.late |= late;
        let last = i + grant as usize;
        // What an overrun leaves of the coast is written again.
        given[i..last].fill(level as u8);
        marks[i..last].fill(0);
        marks[i] = 1;
        for row in durations[i * levels..last * levels].chunks_exact(levels) {
            let duration = row[level];
            cycle.end += u64::from(duration);
            let overran = duration > worst[place * levels + level];
            i += 1;
            place += 1;
            if place == n {
                place = 0;
                bodies = bodies.wrapping_sub(1);
            }
            if overran {
                cycle.overrun = true;
                break;
            }
        }
    }
    cycle
}
