//! The run record's calls and the dry run.

use crate::calls::{refused, Answer, Dried, Given, Run, Tables, LAST_CLOCK, LONGEST_COAST, LONGEST_TIME};

pub(super) fn shape_fits(n: usize, levels: usize) -> bool {
    n.wrapping_sub(1) < 64 && levels.wrapping_sub(1) < 8
}

fn in_range(run: &Run) -> bool {
    // Position counting the running action; the sum cannot wrap where the first tests pass.
    let reached = u64::from(run.position) + u64::from(run.running);
    shape_fits(run.n as usize, run.levels as usize)
        && reached <= u64::from(run.n)
        && run.clock <= LAST_CLOCK
        && run.level < run.levels
        && run.left <= 15
        && u64::from(run.left) + reached <= u64::from(run.n)
        && u64::from(run.decisions) <= reached
}

/// What a decision gives.
pub(super) struct Decision {
    pub level: usize,
    pub late: bool,
    /// The actions that it covers.
    pub grant: u32,
}

/// `limits` begins at the position and ends with the last one; `bounds` is the position's row.
pub(super) fn decide(levels: usize, limits: &[i32], bounds: &[i32], clock: u32) -> Decision {
    let t = clock as i32;
    let fitting = limits[..levels].iter().rposition(|&limit| t <= limit);
    let level = fitting.unwrap_or(0);
    let bounds = &bounds[level * LONGEST_COAST..][..LONGEST_COAST];
    let mut grant = 1;
    if level + 1 == levels {
        let rows = (limits.len() / levels).min(LONGEST_COAST);
        grant = bounds[..rows].iter().rposition(|&bound| t <= bound).unwrap_or(0) as u32 + 1;
    } else {
        // Up to the first position whose next level fits.
        for (r, (row, &bound)) in limits.chunks_exact(levels).zip(bounds).enumerate() {
            if t <= row[level + 1] {
                break;
            }
            if t <= bound {
                grant = r as u32 + 1;
            }
        }
    }
    Decision { level, late: fitting.is_none(), grant }
}

/// A new run record, of zero actions with a refusal.
pub fn start(n: usize, levels: usize) -> (Run, u8) {
    if shape_fits(n, levels) {
        (Run { n: n as u32, levels: levels as u32, ..Run::default() }, 0)
    } else {
        (Run::default(), refused::COUNT.number)
    }
}

/// The next action and its level.
pub fn ask(mut run: Run, order: &[u8], limits: &[i32], bounds: &[i32]) -> (Run, Answer<Given>) {
    let answer = ask_lent(&mut run, order, limits, bounds);
    (run, answer)
}

/// The same on the host's own record.
pub fn ask_lent(run: &mut Run, order: &[u8], limits: &[i32], bounds: &[i32]) -> Answer<Given> {
    if !in_range(run) {
        return Err(refused::TURN);
    }
    let (n, levels, i) = (run.n as usize, run.levels as usize, run.position as usize);
    let cells = n * levels;
    if order.len() < n || limits.len() < cells || bounds.len() < cells * LONGEST_COAST {
        return Err(refused::ROOM);
    }
    if run.running {
        return Err(refused::TURN);
    }
    if i == n {
        return Err(refused::FINISHED);
    }
    let action = u32::from(order[i]);
    run.running = true;
    if run.left > 0 {
        run.left -= 1;
        return Ok(Given { action, level: run.level, decided: false, late: false });
    }
    let row = i * levels;
    let decision = decide(levels, &limits[row..cells], &bounds[row * LONGEST_COAST..], run.clock);
    run.level = decision.level as u32;
    run.left = decision.grant - 1;
    run.decisions += 1;
    run.late |= decision.late;
    Ok(Given { action, level: run.level, decided: true, late: decision.late })
}

/// The end of the running action.
pub fn report(mut run: Run, clock: u32, worst: &[u32]) -> (Run, u8) {
    let number = report_lent(&mut run, clock, worst);
    (run, number)
}

/// The same on the host's own record.
pub fn report_lent(run: &mut Run, clock: u32, worst: &[u32]) -> u8 {
    if !in_range(run) {
        return refused::TURN.number;
    }
    let levels = run.levels as usize;
    if worst.len() < run.n as usize * levels {
        return refused::ROOM.number;
    }
    if !run.running {
        return refused::TURN.number;
    }
    if clock < run.clock {
        return refused::BACK.number;
    }
    if clock > LAST_CLOCK {
        return refused::CLOCK.number;
    }
    if clock - run.clock > worst[run.position as usize * levels + run.level as usize] {
        run.overrun = true;
        run.left = 0;
    }
    run.position += 1;
    run.clock = clock;
    run.running = false;
    0
}

/// A whole cycle over given durations.
pub fn dry_run(
    n: usize,
    levels: usize,
    tables: Tables,
    durations: &[u32],
    given: &mut [u8],
    marks: &mut [u8],
) -> Answer<Dried> {
    if !shape_fits(n, levels) {
        return Err(refused::COUNT);
    }
    let cells = n * levels;
    let Tables { limits, worst_by_position: worst, bounds } = tables;
    let tables_short = limits.len() < cells || worst.len() < cells || bounds.len() < cells * LONGEST_COAST;
    if tables_short || durations.len() < cells || given.len() < n || marks.len() < n {
        return Err(refused::ROOM);
    }
    let durations = &durations[..cells];
    if durations.iter().fold(0, |all, duration| all | duration) > LONGEST_TIME {
        return Err(refused::DURATION);
    }
    let mut cycle = Dried::default();
    let mut i = 0;
    while i < n {
        let row = i * levels;
        let decision = decide(levels, &limits[row..cells], &bounds[row * LONGEST_COAST..], cycle.end);
        cycle.decisions += 1;
        cycle.late |= decision.late;
        marks[i] = 1;
        let last = i + decision.grant as usize;
        loop {
            given[i] = decision.level as u8;
            let cell = i * levels + decision.level;
            let duration = durations[cell];
            cycle.end += duration;
            i += 1;
            // An overrun cancels the rest of the coast.
            let overran = duration > worst[cell];
            cycle.overrun |= overran;
            if overran || i == last {
                break;
            }
            marks[i] = 0;
        }
    }
    Ok(cycle)
}
