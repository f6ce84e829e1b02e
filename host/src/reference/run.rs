//! The asked manager, the grant of a coast, the run record and the dry run.

use super::profile::shape_in_range;
use crate::calls::{refused, Answer, Dried, Given, Run, Tables, LAST_CLOCK, LONGEST_COAST, LONGEST_TIME};

/// Limits and coast bounds by position and level, whatever they are worked out from.
pub trait Limits {
    fn positions(&self) -> usize;
    fn levels(&self) -> usize;
    fn limit(&self, i: usize, q: usize) -> i64;
    fn coast_bound(&self, i: usize, q: usize, r: usize) -> i64;
}

/// As they are lent, whoever wrote them.
#[derive(Clone, Copy, Debug)]
pub struct Bounds<'a> {
    pub n: usize,
    pub levels: usize,
    pub limits: &'a [i32],
    pub bounds: &'a [i32],
}

impl Limits for Bounds<'_> {
    fn positions(&self) -> usize {
        self.n
    }

    fn levels(&self) -> usize {
        self.levels
    }

    fn limit(&self, i: usize, q: usize) -> i64 {
        i64::from(self.limits[i * self.levels + q])
    }

    fn coast_bound(&self, i: usize, q: usize, r: usize) -> i64 {
        i64::from(self.bounds[(i * self.levels + q) * LONGEST_COAST + r - 1])
    }
}

/// The greatest level whose limit the time keeps; else level 0 with the late mark.
pub fn asked(bounds: &impl Limits, i: usize, t: i64) -> (usize, bool) {
    match (0..bounds.levels()).filter(|&q| t <= bounds.limit(i, q)).max() {
        Some(level) => (level, false),
        None => (0, true),
    }
}

/// The greatest r that qualifies, or 1.
pub fn granted(bounds: &impl Limits, i: usize, t: i64, q: usize) -> usize {
    let top = q + 1 == bounds.levels();
    let qualifies =
        |r: usize| t <= bounds.coast_bound(i, q, r) && (top || (i..i + r).all(|j| t > bounds.limit(j, q + 1)));
    (1..=LONGEST_COAST.min(bounds.positions() - i)).filter(|&r| qualifies(r)).max().unwrap_or(1)
}

/// The names of the fields of a run record that are outside their range.
pub fn fields_out(run: Run) -> Vec<&'static str> {
    let number = i64::from;
    let runs = i64::from(run.running);
    let left = number(run.n) - number(run.position) - runs;
    let tests = [
        ("n", !(1..=64).contains(&run.n)),
        ("L", !(1..=8).contains(&run.levels)),
        ("position", run.position > run.n),
        ("clock", run.clock > LAST_CLOCK),
        ("running", run.running && run.position >= run.n),
        ("level", run.level >= run.levels),
        ("coast left", run.left > 15 || number(run.left) > left),
        ("decisions", number(run.decisions) > number(run.position) + runs),
    ];
    tests.into_iter().filter(|(_, out)| *out).map(|(name, _)| name).collect()
}

/// Whether every field of a run record is inside its range.
pub fn in_range(run: Run) -> bool {
    fields_out(run).is_empty()
}

/// A start sets n and L, all else 0 or no; refused, it gives a record of zero actions.
pub fn start(n: usize, levels: usize) -> (Run, u8) {
    if !shape_in_range(n, levels) {
        return (Run::default(), refused::COUNT.number);
    }
    (Run { n: n as u32, levels: levels as u32, ..Run::default() }, 0)
}

/// Asks for the next action and its level.
pub fn ask(run: Run, order: &[u8], limits: &[i32], bounds: &[i32]) -> (Run, Answer<Given>) {
    if !in_range(run) {
        return (run, Err(refused::TURN));
    }
    let (n, levels, i) = (run.n as usize, run.levels as usize, run.position as usize);
    if order.len() < n || limits.len() < n * levels || bounds.len() < n * levels * LONGEST_COAST {
        return (run, Err(refused::ROOM));
    }
    if run.running {
        return (run, Err(refused::TURN));
    }
    if i == n {
        return (run, Err(refused::FINISHED));
    }
    let action = u32::from(order[i]);
    if run.left > 0 {
        let next = Run { running: true, left: run.left - 1, ..run };
        return (next, Ok(Given { action, level: run.level, decided: false, late: false }));
    }
    let bounds = Bounds { n, levels, limits, bounds };
    let t = i64::from(run.clock);
    let (level, late) = asked(&bounds, i, t);
    let next = Run {
        running: true,
        level: level as u32,
        left: granted(&bounds, i, t, level) as u32 - 1,
        decisions: run.decisions + 1,
        late: run.late || late,
        ..run
    };
    (next, Ok(Given { action, level: level as u32, decided: true, late }))
}

/// Reports the end of the running action by the clock since the cycle began.
pub fn report(run: Run, clock: u32, worst: &[u32]) -> (Run, u8) {
    if !in_range(run) {
        return (run, refused::TURN.number);
    }
    let (n, levels) = (run.n as usize, run.levels as usize);
    if worst.len() < n * levels {
        return (run, refused::ROOM.number);
    }
    if !run.running {
        return (run, refused::TURN.number);
    }
    if clock < run.clock {
        return (run, refused::BACK.number);
    }
    if clock > LAST_CLOCK {
        return (run, refused::CLOCK.number);
    }
    let duration = clock - run.clock;
    let overran = duration > worst[run.position as usize * levels + run.level as usize];
    let next = Run {
        position: run.position + 1,
        clock,
        running: false,
        left: if overran { 0 } else { run.left },
        overrun: run.overrun || overran,
        ..run
    };
    (next, 0)
}

/// A whole cycle: start, then ask and report by turns until no action remains.
pub fn dry_run(
    n: usize,
    levels: usize,
    tables: Tables,
    durations: &[u32],
    given: &mut [u8],
    marks: &mut [u8],
) -> Answer<Dried> {
    if !shape_in_range(n, levels) {
        return Err(refused::COUNT);
    }
    let cells = n * levels;
    let tables_short = tables.limits.len() < cells
        || tables.worst_by_position.len() < cells
        || tables.bounds.len() < cells * LONGEST_COAST;
    if tables_short || durations.len() < cells || given.len() < n || marks.len() < n {
        return Err(refused::ROOM);
    }
    if durations[..cells].iter().any(|&duration| duration > LONGEST_TIME) {
        return Err(refused::DURATION);
    }
    // The actions' names are of no account here.
    let order = vec![0; n];
    let (mut run, _) = start(n, levels);
    for i in 0..n {
        let (running, answer) = ask(run, &order, tables.limits, tables.bounds);
        let answer = answer.expect("the turn is right");
        given[i] = answer.level as u8;
        marks[i] = u8::from(answer.decided);
        let end = running.clock + durations[i * levels + answer.level as usize];
        let (ended, number) = report(running, end, tables.worst_by_position);
        assert_eq!(number, 0, "64 durations stay below the clock's limit");
        run = ended;
    }
    Ok(Dried { decisions: run.decisions, end: run.clock, overrun: run.overrun, late: run.late })
}
