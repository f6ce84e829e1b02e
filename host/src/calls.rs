//! The public calls as a trait, so that implementations can be laid side by side, and the values that they hand over.

use std::fmt::{self, Display};

/// Either the values of a call or its refusal.
pub type Answer<T> = Result<T, Refused>;

/// A refusal: its number, and the lowest action at fault, [`NO_ACTION`] where none is.
#[derive(Clone, Copy, Debug, PartialEq, Eq, PartialOrd, Ord)]
pub struct Refused {
    pub number: u8,
    pub action: u8,
}

impl Refused {
    /// One that no action is at fault for.
    pub const fn of(number: u32) -> Refused {
        Refused { number: number as u8, action: NO_ACTION as u8 }
    }

    /// The same with an action at fault.
    pub const fn at(self, action: usize) -> Refused {
        Refused { action: action as u8, ..self }
    }
}

/// As the programs print it: with 5 to 8 the action too, with the others the number alone.
impl Display for Refused {
    fn fmt(&self, out: &mut fmt::Formatter) -> fmt::Result {
        match self.number {
            5..=8 => write!(out, "refused {} {}", self.number, self.action),
            number => write!(out, "refused {number}"),
        }
    }
}

pub use crate::boundary::{
    Body, BodyRun, Run, Totals, ABSENT_BOUND, ABSENT_LONG, LAST_CLOCK, LONGEST_COAST, LONGEST_TIME, MOST_ACTIONS,
    MOST_FRAMES, MOST_LEVELS, MOST_POSITIONS, MOST_RECORDS, MOST_REPEATS, NO_ACTION, POLICY_2005, POLICY_2008,
    SUMMARY_NUMBERS,
};

/// The refusals by the last word of their number in the boundary, each of no action.
pub mod refused {
    use super::Refused;
    use crate::boundary as of;

    pub const SHORT: Refused = Refused::of(of::REFUSED_SHORT);
    pub const VERSION: Refused = Refused::of(of::REFUSED_VERSION);
    pub const COUNT: Refused = Refused::of(of::REFUSED_COUNT);
    pub const LENGTH: Refused = Refused::of(of::REFUSED_LENGTH);
    pub const SPARE: Refused = Refused::of(of::REFUSED_SPARE);
    pub const RANGE: Refused = Refused::of(of::REFUSED_RANGE);
    pub const TABLE: Refused = Refused::of(of::REFUSED_TABLE);
    pub const LOOP: Refused = Refused::of(of::REFUSED_LOOP);
    pub const UNFIT: Refused = Refused::of(of::REFUSED_UNFIT);
    pub const FINISHED: Refused = Refused::of(of::REFUSED_FINISHED);
    pub const TURN: Refused = Refused::of(of::REFUSED_TURN);
    pub const BACK: Refused = Refused::of(of::REFUSED_BACK);
    pub const CLOCK: Refused = Refused::of(of::REFUSED_CLOCK);
    pub const TRACE: Refused = Refused::of(of::REFUSED_TRACE);
    pub const NAME: Refused = Refused::of(of::REFUSED_NAME);
    pub const DURATION: Refused = Refused::of(of::REFUSED_DURATION);
    pub const ROOM: Refused = Refused::of(of::REFUSED_ROOM);
    pub const READING: Refused = Refused::of(of::REFUSED_READING);
    pub const REPEATS: Refused = Refused::of(of::REFUSED_REPEATS);
    pub const POLICY: Refused = Refused::of(of::REFUSED_POLICY);
}

/// Actions, levels and cycle of a profile.
#[derive(Clone, Copy, Debug, Default, PartialEq, Eq)]
#[repr(C)]
pub struct Counts {
    pub n: usize,
    pub levels: usize,
    pub cycle: u32,
}

/// What asking answers.
#[derive(Clone, Copy, Debug, Default, PartialEq, Eq)]
#[repr(C)]
pub struct Given {
    pub action: u32,
    pub level: u32,
    pub decided: bool,
    pub late: bool,
}

/// What the dry run of a cycle answers.
#[derive(Clone, Copy, Debug, Default, PartialEq, Eq)]
#[repr(C)]
pub struct Dried {
    pub decisions: u32,
    pub end: u32,
    pub overrun: bool,
    pub late: bool,
}

/// What opening a recording answers.
#[derive(Clone, Copy, Debug, Default, PartialEq, Eq)]
#[repr(C)]
pub struct Opened {
    pub n: usize,
    pub levels: usize,
    pub frame_bytes: usize,
    pub frames: usize,
}

/// The line of a frame that was run.
#[derive(Clone, Copy, Debug, Default, PartialEq, Eq)]
#[repr(C)]
pub struct Line {
    pub decisions: u32,
    pub lowest: u32,
    pub end: u32,
    pub overrun: bool,
    pub late: bool,
}

/// What the dry run of a body repeated answers.
#[derive(Clone, Copy, Debug, Default, PartialEq, Eq)]
#[repr(C)]
pub struct BodyDried {
    pub decisions: u32,
    pub end: u64,
    pub positions: u32,
    pub overrun: bool,
    pub late: bool,
}

/// The speed reading.
#[derive(Clone, Copy, Debug)]
pub enum Reading {
    Ratio(f64),
    Spent,
    Refused(Refused),
}

/// Readings are equal to the bit.
impl PartialEq for Reading {
    fn eq(&self, other: &Reading) -> bool {
        match (self, other) {
            (Reading::Ratio(a), Reading::Ratio(b)) => a.to_bits() == b.to_bits(),
            (Reading::Spent, Reading::Spent) => true,
            (Reading::Refused(a), Reading::Refused(b)) => a == b,
            _ => false,
        }
    }
}

impl Eq for Reading {}

/// The tables that a dry run or a rehearsal reads: limits and worst times n by L, coast bounds n by L by 16.
#[derive(Clone, Copy, Debug)]
pub struct Tables<'a> {
    pub limits: &'a [i32],
    pub worst_by_position: &'a [u32],
    pub bounds: &'a [i32],
}

/// The tables that the run of a body repeated reads: the body's order, summaries n by L by 4, worst times n by L.
#[derive(Clone, Copy, Debug)]
pub struct BodyTables<'a> {
    pub order: &'a [u8],
    pub summaries: &'a [u32],
    pub worst_by_position: &'a [u32],
}

/// The public calls. Lent slices are written only when there is no refusal, and keep their tails.
#[allow(clippy::too_many_arguments)] // as the header has them
pub trait Calls {
    /// Image check, refusals 1 to 9.
    fn check(&self, image: &[u8]) -> Answer<Counts>;

    /// Unpacks an image.
    fn read(
        &self,
        image: &[u8],
        masks: &mut [u64],
        deadlines: &mut [u32],
        averages: &mut [u32],
        worst_by_action: &mut [u32],
    ) -> Answer<Counts>;

    /// Packs an image and answers its bytes.
    fn write(
        &self,
        counts: Counts,
        masks: &[u64],
        deadlines: &[u32],
        averages: &[u32],
        worst_by_action: &[u32],
        image: &mut [u8],
    ) -> Answer<usize>;

    /// The action's own part of the image, empty with a refusal.
    fn lookup<'a>(&self, image: &'a [u8], action: usize) -> &'a [u8];

    /// The refusal of that lookup alone.
    fn lookup_refusal(&self, image: &[u8], action: usize) -> Answer<()>;

    /// Order, limits, worst times by position and coast bounds, by the policy of a year.
    fn plan(
        &self,
        image: &[u8],
        policy: u32,
        order: &mut [u8],
        limits: &mut [i32],
        worst_by_position: &mut [u32],
        bounds: &mut [i32],
    ) -> Answer<Counts>;

    /// A new run record and the number of refusal, 0 for none.
    fn start(&self, n: usize, levels: usize) -> (Run, u8);

    /// The next action and its level.
    fn ask(&self, run: Run, order: &[u8], limits: &[i32], bounds: &[i32]) -> (Run, Answer<Given>);

    /// The end of the running action; the number of refusal, 0 for none.
    fn report(&self, run: Run, clock: u32, worst_by_position: &[u32]) -> (Run, u8);

    /// A start in the host's own record.
    fn start_lent(&self, run: &mut Run, n: usize, levels: usize) -> u8 {
        let (next, number) = self.start(n, levels);
        *run = next;
        number
    }

    /// Asking on the host's own record.
    fn ask_lent(&self, run: &mut Run, order: &[u8], limits: &[i32], bounds: &[i32]) -> Answer<Given> {
        let (next, answer) = self.ask(*run, order, limits, bounds);
        *run = next;
        answer
    }

    /// A report on the host's own record.
    fn report_lent(&self, run: &mut Run, clock: u32, worst_by_position: &[u32]) -> u8 {
        let (next, number) = self.report(*run, clock, worst_by_position);
        *run = next;
        number
    }

    /// A whole cycle over given durations (n by L, by position).
    fn dry_run(
        &self,
        n: usize,
        levels: usize,
        tables: Tables,
        durations: &[u32],
        given: &mut [u8],
        marks: &mut [u8],
    ) -> Answer<Dried>;

    /// A whole cycle from an image: its actions in order, and what the dry run over its plan gives. Answers n too.
    fn dry_frame(
        &self,
        image: &[u8],
        policy: u32,
        durations: &[u32],
        order: &mut [u8],
        given: &mut [u8],
        marks: &mut [u8],
    ) -> Answer<(usize, Dried)> {
        const CELLS: usize = MOST_ACTIONS * MOST_LEVELS;
        let (mut line, mut limits) = ([0; MOST_ACTIONS], [0; CELLS]);
        let (mut worst, mut bounds) = ([0; CELLS], [0; CELLS * LONGEST_COAST]);
        let Counts { n, levels, .. } = self.plan(image, policy, &mut line, &mut limits, &mut worst, &mut bounds)?;
        let line = &line[..n];
        if order.len() < line.len() {
            return Err(refused::ROOM);
        }
        let tables = Tables { limits: &limits, worst_by_position: &worst, bounds: &bounds };
        let cycle = self.dry_run(n, levels, tables, durations, given, marks)?;
        order[..line.len()].copy_from_slice(line);
        Ok((n, cycle))
    }

    /// An image planned for a recording of so many bytes.
    fn open_recording(
        &self,
        image: &[u8],
        policy: u32,
        bytes: usize,
        order: &mut [u8],
        limits: &mut [i32],
        worst_by_position: &mut [u32],
        bounds: &mut [i32],
    ) -> Answer<Opened>;

    /// A frame of a recording run dry over the planned tables, and counted in the host's own totals. Refused, it counts in none.
    fn rehearse(&self, totals: &mut Totals, n: usize, levels: usize, tables: Tables, frame: &[u8]) -> Answer<Line>;

    /// A body planned to be repeated: its order, the summaries of its rest by position and level, its worst times by position.
    fn plan_body(
        &self,
        image: &[u8],
        repeats: u32,
        policy: u32,
        order: &mut [u8],
        summaries: &mut [u32],
        worst_by_position: &mut [u32],
    ) -> Answer<Body>;

    /// The limit at a position of all repeats and a level.
    fn body_limit(&self, body: Body, summaries: &[u32], position: usize, level: usize) -> Answer<i64>;

    /// The coast bound there for a length.
    fn body_bound(
        &self,
        body: Body,
        summaries: &[u32],
        worst_by_position: &[u32],
        position: usize,
        level: usize,
        length: usize,
    ) -> Answer<i64>;

    /// A start in the host's own record; the number of refusal, 0 for none.
    fn body_start(&self, run: &mut BodyRun, body: Body) -> u8;

    /// The next action and its level.
    fn body_ask(&self, run: &mut BodyRun, tables: &BodyTables) -> Answer<Given>;

    /// The end of the running action; the number of refusal, 0 for none.
    fn body_report(&self, run: &mut BodyRun, clock: u32, worst_by_position: &[u32]) -> u8;

    /// A whole cycle of a body repeated from an image, over durations by position of all repeats and level.
    fn body_dry_frame(
        &self,
        image: &[u8],
        repeats: u32,
        policy: u32,
        durations: &[u32],
        order: &mut [u8],
        given: &mut [u8],
        marks: &mut [u8],
    ) -> Answer<BodyDried>;

    /// The speed reading of positions `first` to `last` at a level and a time.
    fn speed_reading(&self, image: &[u8], first: usize, last: usize, level: usize, t: u32) -> Reading;

    /// Whether that reading is a ratio of at most 1; no where it is spent or refused.
    fn on_time(&self, image: &[u8], first: usize, last: usize, level: usize, t: u32) -> bool {
        matches!(self.speed_reading(image, first, last, level, t), Reading::Ratio(ratio) if ratio <= 1.0)
    }

    /// The image with averages from a trace; answers its bytes.
    fn refresh(&self, image: &[u8], trace: &[u8], fresh: &mut [u8]) -> Answer<usize>;
}

/// Makes a type of a module that has the calls as functions, and of the calls that the module has in a way of its own.
macro_rules! calls_of_module {
    ($name:ident, $module:ident, { $($own:item)* }) => {
        impl Calls for $name {
            $($own)*
            fn check(&self, image: &[u8]) -> Answer<Counts> {
                $module::check(image)
            }
            fn read(
                &self,
                image: &[u8],
                masks: &mut [u64],
                deadlines: &mut [u32],
                averages: &mut [u32],
                worst_by_action: &mut [u32],
            ) -> Answer<Counts> {
                $module::read(image, masks, deadlines, averages, worst_by_action)
            }
            fn write(
                &self,
                counts: Counts,
                masks: &[u64],
                deadlines: &[u32],
                averages: &[u32],
                worst_by_action: &[u32],
                image: &mut [u8],
            ) -> Answer<usize> {
                $module::write(counts, masks, deadlines, averages, worst_by_action, image)
            }
            fn lookup<'a>(&self, image: &'a [u8], action: usize) -> &'a [u8] {
                $module::lookup(image, action)
            }
            fn lookup_refusal(&self, image: &[u8], action: usize) -> Answer<()> {
                $module::lookup_refusal(image, action)
            }
            fn plan(
                &self,
                image: &[u8],
                policy: u32,
                order: &mut [u8],
                limits: &mut [i32],
                worst_by_position: &mut [u32],
                bounds: &mut [i32],
            ) -> Answer<Counts> {
                $module::plan(image, policy, order, limits, worst_by_position, bounds)
            }
            fn start(&self, n: usize, levels: usize) -> (Run, u8) {
                $module::start(n, levels)
            }
            fn ask(&self, run: Run, order: &[u8], limits: &[i32], bounds: &[i32]) -> (Run, Answer<Given>) {
                $module::ask(run, order, limits, bounds)
            }
            fn report(&self, run: Run, clock: u32, worst_by_position: &[u32]) -> (Run, u8) {
                $module::report(run, clock, worst_by_position)
            }
            fn dry_run(
                &self,
                n: usize,
                levels: usize,
                tables: Tables,
                durations: &[u32],
                given: &mut [u8],
                marks: &mut [u8],
            ) -> Answer<Dried> {
                $module::dry_run(n, levels, tables, durations, given, marks)
            }
            fn open_recording(
                &self,
                image: &[u8],
                policy: u32,
                bytes: usize,
                order: &mut [u8],
                limits: &mut [i32],
                worst_by_position: &mut [u32],
                bounds: &mut [i32],
            ) -> Answer<Opened> {
                $module::open_recording(image, policy, bytes, order, limits, worst_by_position, bounds)
            }
            fn rehearse(
                &self,
                totals: &mut Totals,
                n: usize,
                levels: usize,
                tables: Tables,
                frame: &[u8],
            ) -> Answer<Line> {
                $module::rehearse(totals, n, levels, tables, frame)
            }
            fn plan_body(
                &self,
                image: &[u8],
                repeats: u32,
                policy: u32,
                order: &mut [u8],
                summaries: &mut [u32],
                worst_by_position: &mut [u32],
            ) -> Answer<Body> {
                $module::plan_body(image, repeats, policy, order, summaries, worst_by_position)
            }
            fn body_limit(&self, body: Body, summaries: &[u32], position: usize, level: usize) -> Answer<i64> {
                $module::body_limit(body, summaries, position, level)
            }
            fn body_bound(
                &self,
                body: Body,
                summaries: &[u32],
                worst_by_position: &[u32],
                position: usize,
                level: usize,
                length: usize,
            ) -> Answer<i64> {
                $module::body_bound(body, summaries, worst_by_position, position, level, length)
            }
            fn body_start(&self, run: &mut BodyRun, body: Body) -> u8 {
                $module::body_start(run, body)
            }
            fn body_ask(&self, run: &mut BodyRun, tables: &BodyTables) -> Answer<Given> {
                $module::body_ask(run, tables)
            }
            fn body_report(&self, run: &mut BodyRun, clock: u32, worst_by_position: &[u32]) -> u8 {
                $module::body_report(run, clock, worst_by_position)
            }
            fn body_dry_frame(
                &self,
                image: &[u8],
                repeats: u32,
                policy: u32,
                durations: &[u32],
                order: &mut [u8],
                given: &mut [u8],
                marks: &mut [u8],
            ) -> Answer<BodyDried> {
                $module::body_dry_frame(image, repeats, policy, durations, order, given, marks)
            }
            fn speed_reading(&self, image: &[u8], first: usize, last: usize, level: usize, t: u32) -> Reading {
                $module::speed_reading(image, first, last, level, t)
            }
            fn refresh(&self, image: &[u8], trace: &[u8], fresh: &mut [u8]) -> Answer<usize> {
                $module::refresh(image, trace, fresh)
            }
        }
    };
}

use crate::{fast, reference};

/// The calls by their definitions.
#[derive(Clone, Copy, Debug)]
pub struct Reference;
calls_of_module!(Reference, reference, {
    fn on_time(&self, image: &[u8], first: usize, last: usize, level: usize, t: u32) -> bool {
        reference::on_time(image, first, last, level, t)
    }
});

/// The calls written for speed.
#[derive(Clone, Copy, Debug)]
pub struct Fast;
calls_of_module!(Fast, fast, {
    fn ask_lent(&self, run: &mut Run, order: &[u8], limits: &[i32], bounds: &[i32]) -> Answer<Given> {
        fast::ask_lent(run, order, limits, bounds)
    }
    fn report_lent(&self, run: &mut Run, clock: u32, worst_by_position: &[u32]) -> u8 {
        fast::report_lent(run, clock, worst_by_position)
    }
});
