//! The calls on a body repeated.

use super::{by_ends, hex, in_header, junk, usable, Pair};
use crate::calls::{
    Answer, Body, BodyRun, BodyTables, Given, ABSENT_LONG, LAST_CLOCK, LONGEST_COAST, LONGEST_TIME, MOST_ACTIONS,
    MOST_LEVELS, MOST_REPEATS, POLICY_2005, POLICY_2008, SUMMARY_NUMBERS,
};
use crate::draw::{Size, PACES};
use crate::reference::{body_fields_out, Lent, Limits, Longest};
use std::cmp::Ordering;

/// The most positions of which a frame is run, but for a few.
const SOME: usize = 160;

/// The tables of a plan, with room for any body.
struct Planned {
    body: Body,
    order: Vec<u8>,
    summaries: Vec<u32>,
    worst: Vec<u32>,
}

impl Planned {
    fn tables(&self) -> BodyTables<'_> {
        BodyTables { order: &self.order, summaries: &self.summaries, worst_by_position: &self.worst }
    }

    fn lent(&self) -> Lent<'_> {
        Lent { body: self.body, summaries: &self.summaries, worst: &self.worst }
    }
}

/// Whether a record's policy is none, so that it is read as that of 2008.
fn unknown(run: BodyRun) -> bool {
    ![POLICY_2005, POLICY_2008].contains(&run.body.policy)
}

impl Pair<'_> {
    pub(super) fn bodies(&mut self, size: Size) -> Result<(), String> {
        let repeats = self.draw.repeats();
        let image = self.draw.body_image(size, repeats);
        let [one, other] = [self.draw.year(), self.draw.year()];
        self.plan_body(&image, repeats, one)?;
        self.body_dry_frame(&image, repeats, other)?;
        self.body_start()?;
        self.body_single_calls()?;
        self.body_two_readings()?;
        let policy = self.draw.policy();
        let Some(planned) = self.planned_body(&image, repeats, policy) else { return Ok(()) };
        if policy == POLICY_2005 {
            self.note_apart_body(&planned);
        }
        if repeats == 1 || repeats == MOST_REPEATS {
            self.tally.event(format!("N = {repeats}"));
        }
        for _ in 0..6 {
            self.body_reading(planned.body, &planned.summaries, &planned.worst)?;
        }
        self.body_walk(&planned)
    }

    /// Whether a limit falls within the first body of a plan by two tests apart.
    fn note_apart_body(&mut self, planned: &Planned) {
        self.tally.event("2005: a body planned");
        let lent = planned.lent();
        let falls = |i: usize| (0..lent.levels()).any(|q| lent.limit(i + 1, q) < lent.limit(i, q));
        if (0..lent.positions().min(MOST_ACTIONS) - 1).any(falls) {
            self.tally.event("2005: a body's limit that falls");
        }
    }

    fn planned_body(&self, image: &[u8], repeats: u32, policy: u32) -> Option<Planned> {
        const CELLS: usize = MOST_ACTIONS * MOST_LEVELS;
        let (mut order, mut summaries) = (vec![0; MOST_ACTIONS], vec![0; CELLS * SUMMARY_NUMBERS]);
        let mut worst = vec![0; CELLS];
        let body = self.left.plan_body(image, repeats, policy, &mut order, &mut summaries, &mut worst).ok()?;
        Some(Planned { body, order, summaries, worst })
    }

    fn plan_body(&mut self, image: &[u8], repeats: u32, policy: u32) -> Result<(), String> {
        let (n, levels) = in_header(image).unwrap_or((3, 2));
        let draw = &mut self.draw;
        let rooms = [n, n * levels * SUMMARY_NUMBERS, n * levels].map(|needed| draw.room(needed));
        let tables: (Vec<u8>, Vec<u32>, Vec<u32>) = (junk(draw, rooms[0]), junk(draw, rooms[1]), junk(draw, rooms[2]));
        let result = self.same("plan body", &|| format!("{} {repeats} {policy} {rooms:?}", hex(image)), |calls| {
            let mut lent = tables.clone();
            let answer = calls.plan_body(image, repeats, policy, &mut lent.0, &mut lent.1, &mut lent.2);
            (answer, lent)
        })?;
        self.tally.answer("plan body", &result.0);
        Ok(())
    }

    /// A whole cycle from an image. Where there are many positions what is lent is mostly too short for them.
    fn body_dry_frame(&mut self, image: &[u8], repeats: u32, policy: u32) -> Result<(), String> {
        let (n, levels) = in_header(image).unwrap_or((3, 2));
        let positions = n * repeats.min(MOST_REPEATS) as usize;
        let whole = self.draw.once_in(if positions * levels < 16_000 { 2 } else { 500 });
        let lent = if whole { positions } else { positions.min(SOME) };
        let pace = self.draw.pick(&PACES);
        let longest = self.draw.pick(&[0, 3, 40, 1000, LONGEST_TIME]);
        let mut durations = self.draw.durations(&vec![longest; lent * levels], pace);
        if self.draw.once_in(6) {
            // Of more than 64 the end is past the last clock.
            durations.fill(LONGEST_TIME);
        }
        durations.resize(self.draw.room(lent * levels), 0);
        if let (true, Some(duration)) = (self.draw.once_in(16), durations.last_mut()) {
            *duration = self.draw.pick(&[LONGEST_TIME, LONGEST_TIME + 1, u32::MAX]);
        }
        let rooms = [n, lent, lent].map(|needed| self.draw.room(needed));
        let [order, given, marks]: [Vec<u8>; 3] = rooms.map(|room| junk(&mut self.draw, room));
        let input = || format!("{} {repeats} {policy} {durations:?} {rooms:?}", hex(image));
        let (answer, _) = self.same("body dry frame", &input, |calls| {
            let mut lent = (order.clone(), given.clone(), marks.clone());
            let answer =
                calls.body_dry_frame(image, repeats, policy, &durations, &mut lent.0, &mut lent.1, &mut lent.2);
            (answer, lent)
        })?;
        self.tally.answer("body dry frame", &answer);
        if let Ok(cycle) = answer {
            self.tally.event(if cycle.overrun { "body overrun" } else { "body no overrun" });
            for (event, so) in [
                ("body frame late", cycle.late),
                ("body ends past the last clock", cycle.end > LAST_CLOCK.into()),
                ("body frame with a tail", rooms[1] > positions && durations.len() > positions * levels),
                ("all repeats run", repeats == MOST_REPEATS),
                ("2005: a body's frame", policy == POLICY_2005),
            ] {
                if so {
                    self.tally.event(event);
                }
            }
        }
        Ok(())
    }

    /// A start over a record of any content: it is not read.
    fn body_start(&mut self) -> Result<(), String> {
        let mut body = self.draw.body();
        let before = self.draw.body_run(body);
        if self.draw.once_in(2) {
            body = self.draw.edged_body(body);
        }
        let (number, _) = self.same("body start", &|| format!("{before:?} {body:?}"), |calls| {
            let mut run = before;
            let number = calls.body_start(&mut run, body);
            (number, run)
        })?;
        self.tally.number("body start", number);
        Ok(())
    }

    /// A limit and a coast bound, mostly of what is there.
    fn body_reading(&mut self, body: Body, summaries: &[u32], worst: &[u32]) -> Result<(), String> {
        let positions = body.n as usize * body.repeats as usize;
        let last = positions.saturating_sub(1).min(u32::MAX as usize);
        let position = match self.draw.between(0, 3) {
            0 => last - self.draw.index(last.min(17) + 1),
            _ => self.draw.name(last),
        };
        let top = (body.levels as usize).saturating_sub(1);
        let level = if self.draw.once_in(3) { top } else { self.draw.name(top) };
        let length = match self.draw.between(0, 9) {
            0 => self.draw.pick(&[0, 17, 1 << 32 | 1, usize::MAX]),
            // As long as there may be.
            1..=3 => positions.saturating_sub(position).clamp(1, LONGEST_COAST),
            _ => 1 + self.draw.index(LONGEST_COAST),
        };
        let input = || format!("{body:?} {summaries:?} {worst:?} {position} {level} {length}");
        let limit = self.same("body limit", &input, |calls| calls.body_limit(body, summaries, position, level))?;
        self.tally.answer("body limit", &limit);
        if limit.is_ok_and(|limit| limit < 0) {
            self.tally.event("limit below 0");
        }
        let bound =
            self.same("body bound", &input, |calls| calls.body_bound(body, summaries, worst, position, level, length))?;
        self.tally.answer("body bound", &bound);
        if let Ok(bound) = bound {
            self.tally.event(if bound == ABSENT_LONG { "absent bound" } else { "bound" });
            let longest = Longest::of(body, summaries, worst, position);
            if level == top && length == longest.length {
                self.tally.event(match longest.each.cmp(&longest.ends) {
                    Ordering::Less => "bound by its ends",
                    Ordering::Equal => "bound of both readings",
                    Ordering::Greater => "bound at each",
                });
            }
        }
        Ok(())
    }

    /// An asking over the lent record, which comes back as the call leaves it.
    fn body_ask(&mut self, run: BodyRun, tables: BodyTables) -> Result<BodyRun, String> {
        let (next, answer) = self.same("body ask", &|| format!("{run:?} {tables:?}"), |calls| {
            let mut run = run;
            let answer = calls.body_ask(&mut run, &tables);
            (run, answer)
        })?;
        self.note_body_asked(next, &answer);
        if unknown(run) && answer.is_ok() {
            self.note_unknown(run, next, tables);
        }
        if let Ok(Given { decided: true, late: false, level, .. }) = answer {
            if level + 1 == run.body.levels {
                self.note_longest(run, tables);
            }
        }
        Ok(next)
    }

    /// Of a record with no policy that is answered: whether by 2005 it would have been answered otherwise.
    fn note_unknown(&mut self, run: BodyRun, next: BodyRun, tables: BodyTables) {
        if run.left > 0 {
            return self.tally.event("a record of no policy coasts");
        }
        self.tally.event("a record of no policy decides");
        let mut apart = BodyRun { body: Body { policy: POLICY_2005, ..run.body }, ..run };
        self.left.body_ask(&mut apart, &tables).expect("the same turn");
        if apart != (BodyRun { body: apart.body, ..next }) {
            self.tally.event("a record of no policy decides as 2005 would not");
        }
    }

    /// At the top level: which reading grants the coast that is as long as there may be, and whether it is so for want of positions.
    fn note_longest(&mut self, run: BodyRun, tables: BodyTables) {
        let BodyTables { summaries, worst_by_position: worst, .. } = tables;
        let Longest { length, each, ends } = Longest::of(run.body, summaries, worst, run.position as usize);
        let coast = if length == LONGEST_COAST { "longest coast" } else { "coast to the end" };
        let clock = run.clock as i64;
        let reading = match (clock <= each, clock <= ends) {
            (true, true) => "by both readings",
            (true, false) => "at each alone",
            (false, true) => "by its ends alone",
            (false, false) => "by no reading",
        };
        self.tally.event(format!("{coast} {reading}"));
        if run.body.policy == POLICY_2005 && reading.ends_with("alone") {
            self.tally.event(format!("2005: a body's longest coast {reading}"));
        }
    }

    fn note_body_asked(&mut self, run: BodyRun, answer: &Answer<Given>) {
        self.tally.answer("body ask", answer);
        let Ok(answer) = answer else { return };
        if !answer.decided {
            return self.tally.event("body coasted");
        }
        self.tally.event(format!("body grant {}", run.left + 1));
        if answer.late {
            self.tally.event("body late");
            if run.body.policy == POLICY_2005 {
                self.tally.event("2005: a body's late");
            }
        }
        if run.position % run.body.n + u32::from(run.left) >= run.body.n {
            self.tally.event("coast into the next repeat");
        }
    }

    /// A report over the lent record.
    fn body_report(&mut self, run: BodyRun, clock: u32, worst: &[u32]) -> Result<BodyRun, String> {
        let (next, number) = self.same("body report", &|| format!("{run:?} {clock} {worst:?}"), |calls| {
            let mut run = run;
            let number = calls.body_report(&mut run, clock, worst);
            (run, number)
        })?;
        self.tally.number("body report", number);
        if unknown(run) && number == 0 {
            self.tally.event("a record of no policy reports");
        }
        Ok(next)
    }

    /// Calls on records at the edges, with tables that no planner wrote.
    fn body_single_calls(&mut self) -> Result<(), String> {
        for _ in 0..4 {
            let body = self.draw.body();
            let mut run = self.draw.body_run(body);
            if self.draw.once_in(2) {
                run = self.draw.edged_body_run(run);
            }
            if let Some(field) = body_fields_out(run).first() {
                self.tally.event(format!("body {field} out"));
            }
            // Tables by the record's own counts where these are of use.
            let used = usable(run.body.n as usize, run.body.levels as usize);
            let (n, levels) = used.unwrap_or((body.n as usize, body.levels as usize));
            let shape = Body { n: n as u32, levels: levels as u32, ..run.body };
            let mut summaries = self.draw.foreign_summaries(shape, run.clock);
            summaries.resize(self.draw.room(n * levels * SUMMARY_NUMBERS), 0);
            let longest = self.draw.pick(&[0, 1, 5, 1000, u32::MAX]);
            let mut worst: Vec<u32> = (0..n * levels).map(|_| self.draw.between(0, longest)).collect();
            worst.resize(self.draw.room(n * levels), 0);
            let room = self.draw.room(n);
            let order = self.draw.bytes(room);
            self.tally.event("body not planned by anyone");

            self.body_reading(run.body, &summaries, &worst)?;
            let tables = BodyTables { order: &order, summaries: &summaries, worst_by_position: &worst };
            self.body_ask(run, tables)?;
            let clock = self.draw.clock_after(run.clock.min(u32::MAX.into()) as u32, longest);
            self.body_report(run, clock, &worst)?;
        }
        Ok(())
    }

    /// A decision and a coast bound over tables that no planner wrote, by which the longest coast may be granted in one reading alone.
    fn body_two_readings(&mut self) -> Result<(), String> {
        let body = self.draw.body();
        let positions = body.n * body.repeats;
        let left = self.draw.between(0, body.cycle.min(60));
        let run = BodyRun {
            body: self.draw.any_policy(body),
            clock: (body.cycle - left).into(),
            position: self.draw.body_run(body).position.min(positions - 1),
            ..BodyRun::default()
        };
        let (summaries, worst) = self.draw.apart(body, left);
        self.body_reading(body, &summaries, &worst)?;
        let order = self.draw.bytes(body.n as usize);
        self.body_ask(run, BodyTables { order: &order, summaries: &summaries, worst_by_position: &worst })?;
        Ok(())
    }

    /// Calls by turns from the start, or from a repeat on, with a wrong turn now and then.
    fn body_walk(&mut self, planned: &Planned) -> Result<(), String> {
        let Body { n, levels, repeats, .. } = planned.body;
        let mut run = BodyRun::default();
        self.left.body_start(&mut run, planned.body);
        run.body = self.draw.any_policy(run.body);
        if self.draw.once_in(2) {
            // As if the repeats before it had taken no time.
            run.position = n * self.draw.between(0, repeats - 1);
        }
        let turns = 2 * (n * repeats - run.position).min(40) + 8;
        for _ in 0..turns {
            let asks = run.running == self.draw.once_in(16);
            run = if asks {
                let next = self.body_ask(run, planned.tables())?;
                if next.decisions > run.decisions && run.body.policy == POLICY_2005 {
                    let ends = by_ends(&planned.lent(), run.position as usize, run.clock as i64, next.level as usize);
                    if ends > usize::from(next.left) + 1 {
                        self.tally.event("2005: a body's coast kept short within");
                    }
                }
                next
            } else {
                let cell = (run.position % n * levels + run.level) as usize;
                let longest = planned.worst[cell];
                let clock = match self.draw.between(0, 15) {
                    0 => self.draw.clock_after(run.clock as u32, longest),
                    _ => run.clock as u32 + self.draw.between(0, longest),
                };
                self.body_report(run, clock, &planned.worst)?
            };
        }
        Ok(())
    }
}
