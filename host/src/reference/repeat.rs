//! A body repeated: the unrolled profile, for few positions, by the definitions of any profile; and the calls on lent tables, whoever wrote them.

use super::image::accept_but_unfit;
use super::limits::{Planned, Policy};
use super::order::Order;
use super::profile::{shape_in_range, Profile};
use super::run::{asked, granted, Limits};
use crate::calls::{
    refused, Answer, Body, BodyDried, BodyRun, BodyTables, Given, Refused, ABSENT_LONG, LAST_CLOCK, LONGEST_COAST,
    LONGEST_TIME, MOST_REPEATS, SUMMARY_NUMBERS,
};
use std::collections::BTreeSet;

/// The most positions that are unrolled to tell whether a body fits.
const FEW: usize = 24;

// ---- the unrolled profile

/// n N actions, numbered repeat by repeat: the mask of each is that of its action moved by the repeats before it, its deadline and times are its
/// action's own.
fn unroll(profile: &Profile, repeats: usize) -> Profile<BTreeSet<usize>> {
    let n = profile.n;
    let actions = || (0..n * repeats).map(|x| (x / n, x % n));
    let moved =
        |(repeat, a): (usize, usize)| (0..n).filter(|&b| profile.before(b, a)).map(|b| repeat * n + b).collect();
    Profile {
        n: n * repeats,
        levels: profile.levels,
        cycle: profile.cycle,
        masks: actions().map(moved).collect(),
        deadlines: actions().map(|(_, a)| profile.deadlines[a]).collect(),
        averages: actions().map(|(_, a)| profile.averages[a].clone()).collect(),
        worst: actions().map(|(_, a)| profile.worst[a].clone()).collect(),
    }
}

/// The unrolled profile in its own order, with all its limits.
#[derive(Clone, Debug)]
pub struct Unrolled {
    pub planned: Planned,
    limits: Vec<Vec<i64>>,
}

impl Unrolled {
    /// Of an accepted body.
    pub fn of(profile: &Profile, repeats: usize, policy: Policy) -> Unrolled {
        let planned = Planned::of(&unroll(profile, repeats));
        let limits = planned.limits(policy);
        Unrolled { planned, limits }
    }

    /// Every permitted order, for few positions, and whether each misses a deadline.
    pub fn every_order(profile: &Profile, repeats: usize) -> Vec<bool> {
        let unrolled = unroll(profile, repeats);
        Order::every(&unrolled).iter().map(|order| order.misses_a_deadline(&unrolled)).collect()
    }
}

impl Limits for Unrolled {
    fn positions(&self) -> usize {
        self.planned.n
    }

    fn levels(&self) -> usize {
        self.planned.levels
    }

    fn limit(&self, i: usize, q: usize) -> i64 {
        self.limits[i][q]
    }

    fn coast_bound(&self, i: usize, q: usize, r: usize) -> i64 {
        if r > self.planned.n - i {
            return ABSENT_LONG;
        }
        self.planned.coast_bound(&self.limits, i, q, r)
    }
}

/// 9 of the unrolled profile. Where there are many positions its order is taken to be the body's, repeat by repeat, as it is found to be where
/// there are few.
fn unfit(profile: &Profile, repeats: usize) -> bool {
    if profile.n * repeats <= FEW {
        return unroll(profile, repeats).unfit();
    }
    let Order(order) = Order::by_urgency(profile);
    let mut end = 0;
    (0..repeats).flat_map(|_| &order).any(|&a| {
        end += profile.worst[a][0];
        end > profile.deadline(a)
    })
}

/// The profile of an accepted body, or the refusal 1 to 8, 19, 9.
fn accept_body(image: &[u8], repeats: u32) -> Answer<Profile> {
    let profile = accept_but_unfit(image)?;
    let own = |&deadline: &i64| deadline != 0 && deadline != profile.cycle;
    if !(1..=MOST_REPEATS).contains(&repeats) || profile.deadlines.iter().any(own) {
        return Err(refused::REPEATS);
    }
    if unfit(&profile, repeats as usize) {
        return Err(refused::UNFIT);
    }
    Ok(profile)
}

// ---- summaries

/// What a stretch of positions is summed up by at a level: its averages, its worst times at level 0, a third number that is the policy's own, and its
/// worst times at the level. The third is, mixed, the greatest over the positions j of the averages before j, the worst time of j and the level 0
/// worst times after j; apart, the worst time of the first position and the level 0 worst times after it.
#[derive(Clone, Copy, Debug, PartialEq, Eq)]
pub struct Sums {
    pub average: i64,
    pub lowest: i64,
    pub third: i64,
    pub worst: i64,
}

/// Of any number of positions.
#[derive(Clone, Copy, Debug, PartialEq, Eq)]
pub enum Summary {
    Empty,
    Of(Sums),
}

impl Sums {
    /// Positions i to k of a plan, one or more.
    pub fn stretch(planned: &Planned, policy: Policy, i: usize, k: usize, q: usize) -> Sums {
        let before = |j: usize| (i..j).map(|p| planned.averages[p][q]).sum::<i64>();
        Sums {
            average: planned.average(i, k, q),
            lowest: (i..=k).map(|p| planned.worst[p][0]).sum(),
            third: match policy {
                Policy::Mixed => (i..=k).map(|j| before(j) + planned.safe(j, k, q)).max().expect("i is among them"),
                Policy::Apart => planned.safe(i, k, q),
            },
            worst: (i..=k).map(|p| planned.worst[p][q]).sum(),
        }
    }

    /// One stretch after another.
    pub fn joined(self, next: Sums, policy: Policy) -> Sums {
        let through = self.third + next.lowest;
        Sums {
            average: self.average + next.average,
            lowest: self.lowest + next.lowest,
            third: match policy {
                Policy::Mixed => through.max(self.average + next.third),
                Policy::Apart => through,
            },
            worst: self.worst + next.worst,
        }
    }

    /// So many of it, one after another.
    pub fn bodies(self, many: i64, policy: Policy) -> Summary {
        if many == 0 {
            return Summary::Empty;
        }
        let each = match policy {
            Policy::Mixed => self.average.max(self.lowest),
            Policy::Apart => self.lowest,
        };
        Summary::Of(Sums {
            average: many * self.average,
            lowest: many * self.lowest,
            third: self.third + (many - 1) * each,
            worst: many * self.worst,
        })
    }

    /// What the limit at its first position takes off the deadline, where it goes to the end: apart, the averages are a test of their own.
    pub fn taken(self, policy: Policy) -> i64 {
        match policy {
            Policy::Mixed => self.third,
            Policy::Apart => self.third.max(self.average),
        }
    }
}

impl Summary {
    pub fn join(self, next: Summary, policy: Policy) -> Summary {
        match (self, next) {
            (Summary::Empty, other) | (other, Summary::Empty) => other,
            (Summary::Of(one), Summary::Of(other)) => Summary::Of(one.joined(other, policy)),
        }
    }
}

/// The summaries and the worst times as lent, whoever wrote them, of a body whose counts are inside their ranges.
pub struct Lent<'a> {
    pub body: Body,
    pub summaries: &'a [u32],
    pub worst: &'a [u32],
}

impl Lent<'_> {
    fn n(&self) -> usize {
        self.body.n as usize
    }

    fn policy(&self) -> Policy {
        Policy::read(self.body.policy)
    }

    /// The rest of the body from a place in it.
    fn rest(&self, place: usize, q: usize) -> Sums {
        let at = (place * self.levels() + q) * SUMMARY_NUMBERS;
        let [average, lowest, third, worst] = [0, 1, 2, 3].map(|number| i64::from(self.summaries[at + number]));
        Sums { average, lowest, third, worst }
    }

    /// All positions from one on: the rest of its body, then the whole bodies after that.
    fn from(&self, i: usize, q: usize) -> Sums {
        let after = i64::from(self.body.repeats) - 1 - (i / self.n()) as i64;
        let policy = self.policy();
        match Summary::Of(self.rest(i % self.n(), q)).join(self.rest(0, q).bodies(after, policy), policy) {
            Summary::Of(sums) => sums,
            Summary::Empty => panic!("the position itself is in it"),
        }
    }

    fn worst(&self, position: usize, q: usize) -> i64 {
        i64::from(self.worst[position % self.n() * self.levels() + q])
    }

    /// The most actions that a coast may have.
    fn longest(&self, i: usize) -> usize {
        LONGEST_COAST.min(self.positions() - i)
    }

    /// The bound of a coast read at each of its positions: the least, over these, of the limit less the worst times before it.
    fn each(&self, i: usize, q: usize, r: usize) -> i64 {
        let bound = |j: usize| self.limit(j, q) - (i..j).map(|p| self.worst(p, q)).sum::<i64>();
        (i..i + r).map(bound).min().expect("r is at least 1")
    }

    /// The bound of a coast read by its ends, the first position and the last: the worst times before the last are those from the first on less
    /// those from the last on, as these are summed up, and 0 where the latter are more.
    fn ends(&self, i: usize, q: usize, r: usize) -> i64 {
        let (first, last) = (self.from(i, q), self.from(i + r - 1, q));
        let spent = (first.worst - last.worst).max(0);
        i64::from(self.body.cycle) - first.taken(self.policy()).max(spent + last.taken(self.policy()))
    }
}

impl Limits for Lent<'_> {
    fn positions(&self) -> usize {
        self.n() * self.body.repeats as usize
    }

    fn levels(&self) -> usize {
        self.body.levels as usize
    }

    /// The cycle less what is summed up of all positions from there on.
    fn limit(&self, i: usize, q: usize) -> i64 {
        i64::from(self.body.cycle) - self.from(i, q).taken(self.policy())
    }

    /// Read at each position, and at the top level, where the coast is as long as there may be, by its ends too: the greater counts.
    fn coast_bound(&self, i: usize, q: usize, r: usize) -> i64 {
        if r > self.positions() - i {
            return ABSENT_LONG;
        }
        let each = self.each(i, q, r);
        if q + 1 == self.levels() && r == self.longest(i) {
            return each.max(self.ends(i, q, r));
        }
        each
    }
}

// ---- planning

/// Order, summaries of the rest of the body and worst times by position.
pub fn plan_body(
    image: &[u8],
    repeats: u32,
    policy: u32,
    order: &mut [u8],
    summaries: &mut [u32],
    worst: &mut [u32],
) -> Answer<Body> {
    let profile = accept_body(image, repeats)?;
    let by = Policy::of(policy)?;
    let (n, levels) = (profile.n, profile.levels);
    let cells = n * levels;
    if order.len() < n || summaries.len() < cells * SUMMARY_NUMBERS || worst.len() < cells {
        return Err(refused::ROOM);
    }
    let planned = Planned::of(&profile);
    for (place, &action) in order.iter_mut().zip(&planned.order) {
        *place = action as u8;
    }
    for (i, q) in (0..n).flat_map(|i| (0..levels).map(move |q| (i, q))) {
        let cell = i * levels + q;
        let Sums { average, lowest, third, worst: all } = Sums::stretch(&planned, by, i, n - 1, q);
        for (number, sum) in [average, lowest, third, all].into_iter().enumerate() {
            summaries[cell * SUMMARY_NUMBERS + number] = sum as u32;
        }
        worst[cell] = planned.worst[i][q] as u32;
    }
    Ok(Body { n: n as u32, levels: levels as u32, cycle: profile.cycle as u32, repeats, policy })
}

// ---- limits and bounds

/// 3, 19 and 20.
fn body_refusal(body: Body) -> Option<Refused> {
    if !shape_in_range(body.n as usize, body.levels as usize) || !(1..=LAST_CLOCK).contains(&body.cycle) {
        return Some(refused::COUNT);
    }
    if !(1..=MOST_REPEATS).contains(&body.repeats) {
        return Some(refused::REPEATS);
    }
    Policy::of(body.policy).err()
}

/// Whether summaries and worst times have room for a body.
fn short(body: Body, summaries: &[u32], worst: &[u32]) -> bool {
    let cells = body.n as usize * body.levels as usize;
    summaries.len() < cells * SUMMARY_NUMBERS || worst.len() < cells
}

/// The limit at a position of all repeats and a level; it reads no worst times.
pub fn body_limit(body: Body, summaries: &[u32], position: usize, level: usize) -> Answer<i64> {
    if let Some(refused) = body_refusal(body) {
        return Err(refused);
    }
    let lent = Lent { body, summaries, worst: &[] };
    if summaries.len() < lent.n() * lent.levels() * SUMMARY_NUMBERS {
        return Err(refused::ROOM);
    }
    if position >= lent.positions() || level >= lent.levels() {
        return Err(refused::READING);
    }
    Ok(lent.limit(position, level))
}

/// The coast bound there for a length.
pub fn body_bound(
    body: Body,
    summaries: &[u32],
    worst: &[u32],
    position: usize,
    level: usize,
    length: usize,
) -> Answer<i64> {
    if let Some(refused) = body_refusal(body) {
        return Err(refused);
    }
    if short(body, summaries, worst) {
        return Err(refused::ROOM);
    }
    let lent = Lent { body, summaries, worst };
    if position >= lent.positions() || level >= lent.levels() || !(1..=LONGEST_COAST).contains(&length) {
        return Err(refused::READING);
    }
    Ok(lent.coast_bound(position, level, length))
}

/// The coast at a position that is there which is read in two ways, as long as there may be and at the top level.
#[derive(Clone, Copy, Debug, PartialEq, Eq)]
pub struct Longest {
    pub length: usize,
    /// Its bound at each position.
    pub each: i64,
    /// Its bound by its ends.
    pub ends: i64,
}

impl Longest {
    /// Of tables that have room for the body.
    pub fn of(body: Body, summaries: &[u32], worst: &[u32], position: usize) -> Longest {
        let lent = Lent { body, summaries, worst };
        let (length, top) = (lent.longest(position), lent.levels() - 1);
        Longest { length, each: lent.each(position, top, length), ends: lent.ends(position, top, length) }
    }
}

// ---- the run

/// The names of the fields of a run record that are outside their range; a policy has none.
pub fn body_fields_out(run: BodyRun) -> Vec<&'static str> {
    let number = i64::from;
    let Body { n, levels, cycle, repeats, .. } = run.body;
    let positions = number(n) * number(repeats);
    let reached = number(run.position) + i64::from(run.running);
    let tests = [
        ("n", !(1..=64).contains(&n)),
        ("L", !(1..=8).contains(&levels)),
        ("cycle", !(1..=LAST_CLOCK).contains(&cycle)),
        ("N", !(1..=MOST_REPEATS).contains(&repeats)),
        ("position", number(run.position) > positions),
        ("clock", run.clock > u64::from(LAST_CLOCK)),
        ("running", reached > positions && run.running),
        ("level", run.level >= levels),
        ("coast left", run.left > 15 || i64::from(run.left) + reached > positions),
        ("decisions", number(run.decisions) > reached),
    ];
    tests.into_iter().filter(|(_, out)| *out).map(|(name, _)| name).collect()
}

/// A start sets the body, all else 0 or no; refused, it leaves a record of zero actions.
pub fn body_start(run: &mut BodyRun, body: Body) -> u8 {
    match body_refusal(body) {
        Some(refused) => {
            *run = BodyRun::default();
            refused.number
        }
        None => {
            *run = BodyRun { body, ..BodyRun::default() };
            0
        }
    }
}

/// The record with its next action running, and what is given; the turn is right.
fn given(run: BodyRun, bounds: &impl Limits, action: u32) -> (BodyRun, Given) {
    if run.left > 0 {
        let next = BodyRun { running: true, left: run.left - 1, ..run };
        return (next, Given { action, level: run.level, decided: false, late: false });
    }
    let (i, t) = (run.position as usize, run.clock as i64);
    let (level, late) = asked(bounds, i, t);
    let next = BodyRun {
        running: true,
        level: level as u32,
        left: (granted(bounds, i, t, level) - 1) as u8,
        decisions: run.decisions + 1,
        late: run.late || late,
        ..run
    };
    (next, Given { action, level: level as u32, decided: true, late })
}

/// The record with its running action ended, whose worst time at its level is `worst`.
fn ended(run: BodyRun, clock: u64, worst: i64) -> BodyRun {
    let overran = (clock - run.clock) as i64 > worst;
    BodyRun {
        position: run.position + 1,
        clock,
        running: false,
        left: if overran { 0 } else { run.left },
        overrun: run.overrun || overran,
        ..run
    }
}

/// Asks for the next action, told by its unrolled number, and its level.
pub fn body_ask(run: &mut BodyRun, tables: &BodyTables) -> Answer<Given> {
    if !body_fields_out(*run).is_empty() {
        return Err(refused::TURN);
    }
    let &BodyTables { order, summaries, worst_by_position: worst } = tables;
    let lent = Lent { body: run.body, summaries, worst };
    if order.len() < lent.n() || short(run.body, summaries, worst) {
        return Err(refused::ROOM);
    }
    if run.running {
        return Err(refused::TURN);
    }
    let i = run.position as usize;
    if i == lent.positions() {
        return Err(refused::FINISHED);
    }
    let action = i / lent.n() * lent.n() + usize::from(order[i % lent.n()]);
    let (next, answer) = given(*run, &lent, action as u32);
    *run = next;
    Ok(answer)
}

/// Reports the end of the running action by the clock since the cycle began.
pub fn body_report(run: &mut BodyRun, clock: u32, worst: &[u32]) -> u8 {
    if !body_fields_out(*run).is_empty() {
        return refused::TURN.number;
    }
    let lent = Lent { body: run.body, summaries: &[], worst };
    if worst.len() < lent.n() * lent.levels() {
        return refused::ROOM.number;
    }
    if !run.running {
        return refused::TURN.number;
    }
    if u64::from(clock) < run.clock {
        return refused::BACK.number;
    }
    if clock > LAST_CLOCK {
        return refused::CLOCK.number;
    }
    *run = ended(*run, clock.into(), lent.worst(run.position as usize, run.level as usize));
    0
}

// ---- the dry run

/// A whole cycle over limits and worst times by position, from time 0.
fn cycle(
    bounds: &impl Limits,
    worst: impl Fn(usize, usize) -> i64,
    durations: &[u32],
    given_levels: &mut [u8],
    marks: &mut [u8],
) -> BodyDried {
    let mut run = BodyRun::default();
    for i in 0..bounds.positions() {
        let (running, answer) = given(run, bounds, 0);
        let level = answer.level as usize;
        given_levels[i] = level as u8;
        marks[i] = u8::from(answer.decided);
        let end = running.clock + u64::from(durations[i * bounds.levels() + level]);
        run = ended(running, end, worst(i, level));
    }
    let BodyRun { decisions, clock, position, overrun, late, .. } = run;
    BodyDried { decisions, end: clock, positions: position, overrun, late }
}

impl Unrolled {
    /// A whole cycle of the unrolled profile over n N by L durations: what the dry run answers, with the levels given and the decided marks.
    pub fn cycle(&self, durations: &[u32]) -> (BodyDried, Vec<u8>, Vec<u8>) {
        let (mut given, mut marks) = (vec![0; self.planned.n], vec![0; self.planned.n]);
        let worst = |i: usize, q: usize| self.planned.worst[i][q];
        let answer = cycle(self, worst, durations, &mut given, &mut marks);
        (answer, given, marks)
    }
}

/// A whole cycle from an image.
pub fn body_dry_frame(
    image: &[u8],
    repeats: u32,
    policy: u32,
    durations: &[u32],
    order: &mut [u8],
    given: &mut [u8],
    marks: &mut [u8],
) -> Answer<BodyDried> {
    let profile = accept_body(image, repeats)?;
    Policy::of(policy)?;
    let (n, cells) = (profile.n, profile.n * profile.levels);
    let repeats_of = |count: usize| count * repeats as usize;
    let rooms_short = order.len() < n || given.len() < repeats_of(n) || marks.len() < repeats_of(n);
    if rooms_short || durations.len() < repeats_of(cells) {
        return Err(refused::ROOM);
    }
    if durations[..repeats_of(cells)].iter().any(|&duration| duration > LONGEST_TIME) {
        return Err(refused::DURATION);
    }
    let (mut summaries, mut worst) = (vec![0; cells * SUMMARY_NUMBERS], vec![0; cells]);
    let body = plan_body(image, repeats, policy, order, &mut summaries, &mut worst).expect("it is accepted");
    let lent = Lent { body, summaries: &summaries, worst: &worst };
    Ok(cycle(&lent, |i, q| lent.worst(i, q), durations, given, marks))
}
