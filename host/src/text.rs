//! What the four programs print, and of a body repeated its dry run.

use crate::calls::{
    Answer, Body, BodyDried, Calls, Counts, Dried, Line, Opened, Refused, Tables, Totals, LONGEST_COAST, MOST_ACTIONS,
    MOST_LEVELS, SUMMARY_NUMBERS,
};
use std::fmt::Write;

/// The tables of a plan, with room for any profile.
struct Plan {
    order: Vec<u8>,
    limits: Vec<i32>,
    worst: Vec<u32>,
    bounds: Vec<i32>,
}

impl Plan {
    fn new() -> Plan {
        const CELLS: usize = MOST_ACTIONS * MOST_LEVELS;
        let (order, limits) = (vec![0; MOST_ACTIONS], vec![0; CELLS]);
        Plan { order, limits, worst: vec![0; CELLS], bounds: vec![0; CELLS * LONGEST_COAST] }
    }

    fn tables(&self) -> Tables<'_> {
        Tables { limits: &self.limits, worst_by_position: &self.worst, bounds: &self.bounds }
    }
}

fn planned(calls: &dyn Calls, image: &[u8], policy: u32) -> Answer<(Counts, Plan)> {
    let mut plan = Plan::new();
    let Plan { order, limits, worst, bounds } = &mut plan;
    let counts = calls.plan(image, policy, order, limits, worst, bounds)?;
    Ok((counts, plan))
}

/// The line of a refusal.
fn line(refused: Refused) -> String {
    format!("{refused}\n")
}

/// The plan program, given the image on its standard input and the year of a policy.
pub fn plan(calls: &dyn Calls, image: &[u8], policy: u32) -> String {
    match planned(calls, image, policy) {
        Err(refused) => line(refused),
        Ok((Counts { n, levels, cycle }, plan)) => {
            let mut text = format!("{n} {levels} {cycle}\n");
            let rows = plan.limits.chunks(levels);
            for (i, row) in rows.take(n).enumerate() {
                write!(text, "{i} {}", plan.order[i]).expect("text grows");
                for limit in row {
                    write!(text, " {limit}").expect("text grows");
                }
                text.push('\n');
            }
            text
        }
    }
}

/// The dry-run program, given the contents of its two files and the year of a policy.
pub fn dry_run(calls: &dyn Calls, image: &[u8], policy: u32, durations: &[u8]) -> String {
    cycle_lines(calls, image, policy, durations).unwrap_or_else(line)
}

/// Durations, high byte first; what is left over at the end is none.
fn entries(bytes: &[u8]) -> Vec<u32> {
    bytes.chunks_exact(4).map(|bytes| u32::from_be_bytes([bytes[0], bytes[1], bytes[2], bytes[3]])).collect()
}

fn cycle_lines(calls: &dyn Calls, image: &[u8], policy: u32, durations: &[u8]) -> Answer<String> {
    let (Counts { n, levels, .. }, plan) = planned(calls, image, policy)?;
    let mut durations = entries(durations);
    durations.truncate(n * levels);
    let (mut given, mut marks) = ([0; MOST_ACTIONS], [0; MOST_ACTIONS]);
    let cycle = calls.dry_run(n, levels, plan.tables(), &durations, &mut given, &mut marks)?;
    let mut text = String::new();
    for i in 0..n {
        writeln!(text, "{i} {} {} {}", plan.order[i], given[i], marks[i]).expect("text grows");
    }
    let Dried { decisions, end, overrun, late } = cycle;
    writeln!(text, "{decisions} {end} {} {}", u8::from(overrun), u8::from(late)).expect("text grows");
    Ok(text)
}

/// The rehearsing program, given the contents of its two files and the year of a policy.
pub fn rehearse(calls: &dyn Calls, image: &[u8], policy: u32, recording: &[u8]) -> String {
    frame_lines(calls, image, policy, recording).unwrap_or_else(line)
}

fn frame_lines(calls: &dyn Calls, image: &[u8], policy: u32, recording: &[u8]) -> Answer<String> {
    let mut plan = Plan::new();
    let Plan { order, limits, worst, bounds } = &mut plan;
    let Opened { n, levels, frame_bytes, .. } =
        calls.open_recording(image, policy, recording.len(), order, limits, worst, bounds)?;
    let mut totals = Totals::default();
    let mut text = String::new();
    for frame in recording.chunks_exact(frame_bytes) {
        match calls.rehearse(&mut totals, n, levels, plan.tables(), frame) {
            Err(refused) => text += &line(refused),
            Ok(Line { decisions, lowest, end, overrun, late }) => {
                let marks = (u8::from(overrun), u8::from(late));
                writeln!(text, "{decisions} {lowest} {end} {} {}", marks.0, marks.1).expect("text grows");
            }
        }
    }
    let Totals { frames, decisions, overruns, lates } = totals;
    writeln!(text, "{frames} {decisions} {overruns} {lates}").expect("text grows");
    Ok(text)
}

/// A body planned, with the tables that its limits and coast bounds are worked out from.
pub struct BodyPlan {
    pub body: Body,
    pub order: Vec<u8>,
    pub summaries: Vec<u32>,
    pub worst: Vec<u32>,
}

impl BodyPlan {
    pub fn of(calls: &dyn Calls, image: &[u8], repeats: u32, policy: u32) -> Answer<BodyPlan> {
        const CELLS: usize = MOST_ACTIONS * MOST_LEVELS;
        let (mut order, mut summaries) = (vec![0; MOST_ACTIONS], vec![0; CELLS * SUMMARY_NUMBERS]);
        let mut worst = vec![0; CELLS];
        let body = calls.plan_body(image, repeats, policy, &mut order, &mut summaries, &mut worst)?;
        Ok(BodyPlan { body, order, summaries, worst })
    }

    pub fn positions(&self) -> usize {
        self.body.n as usize * self.body.repeats as usize
    }

    /// The action at a position, by its number in the unrolled profile.
    pub fn action(&self, position: usize) -> usize {
        let n = self.body.n as usize;
        position / n * n + usize::from(self.order[position % n])
    }

    /// The line of a position: its action, and its limits.
    pub fn line(&self, calls: &dyn Calls, position: usize) -> String {
        let mut line = format!("{position} {}", self.action(position));
        for level in 0..self.body.levels as usize {
            let limit = calls.body_limit(self.body, &self.summaries, position, level).expect("it is there");
            write!(line, " {limit}").expect("text grows");
        }
        line + "\n"
    }

    /// A coast bound of a position and a level that are there.
    pub fn bound(&self, calls: &dyn Calls, position: usize, level: usize, length: usize) -> i64 {
        let bound = calls.body_bound(self.body, &self.summaries, &self.worst, position, level, length);
        bound.expect("it is there")
    }
}

/// The program that plans a body repeated, given the image on its standard input and the year of a policy.
pub fn repeat_plan(calls: &dyn Calls, image: &[u8], repeats: u32, policy: u32) -> String {
    match BodyPlan::of(calls, image, repeats, policy) {
        Err(refused) => line(refused),
        Ok(plan) => {
            let Body { n, levels, cycle, repeats, .. } = plan.body;
            let lines: String = (0..plan.positions()).map(|position| plan.line(calls, position)).collect();
            format!("{n} {levels} {cycle} {repeats}\n") + &lines
        }
    }
}

/// The dry run of a body repeated, as the dry-run program prints one.
pub fn repeat_dry_run(calls: &dyn Calls, image: &[u8], repeats: u32, policy: u32, durations: &[u8]) -> String {
    body_lines(calls, image, repeats, policy, durations).unwrap_or_else(line)
}

fn body_lines(calls: &dyn Calls, image: &[u8], repeats: u32, policy: u32, durations: &[u8]) -> Answer<String> {
    let plan = BodyPlan::of(calls, image, repeats, policy)?;
    let mut order = vec![0; plan.body.n as usize];
    let (mut given, mut marks) = (vec![0; plan.positions()], vec![0; plan.positions()]);
    let cycle =
        calls.body_dry_frame(image, repeats, policy, &entries(durations), &mut order, &mut given, &mut marks)?;
    assert_eq!(order, plan.order[..order.len()], "one order");
    let mut text = String::new();
    for i in 0..cycle.positions as usize {
        writeln!(text, "{i} {} {} {}", plan.action(i), given[i], marks[i]).expect("text grows");
    }
    let BodyDried { decisions, end, overrun, late, .. } = cycle;
    writeln!(text, "{decisions} {end} {} {}", u8::from(overrun), u8::from(late)).expect("text grows");
    Ok(text)
}
