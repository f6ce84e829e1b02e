//! Two implementations of the calls side by side over drawn inputs, with a tally of what was met.

mod bodies;

use crate::calls::{
    Answer, Calls, Counts, Given, Line, Reading, Refused, Run, Tables, Totals, LAST_CLOCK, LONGEST_COAST, MOST_ACTIONS,
    MOST_LEVELS, NO_ACTION, POLICY_2005, POLICY_2008,
};
use crate::draw::{Draw, Size, Sketch, PACES};
use crate::reference::{fields_out, from_tables, spare_bit_set, totals_out, unpack, Bounds, Follows, Limits, Profile};
use std::collections::BTreeMap;
use std::fmt::{self, Debug, Display};

/// How often each call gave each number, 0 for none, at which action, and how often some events were seen.
#[derive(Clone, Debug, Default)]
pub struct Tally {
    numbers: BTreeMap<(&'static str, u8), u64>,
    actions: BTreeMap<(&'static str, Refused), u64>,
    events: BTreeMap<String, u64>,
}

/// The numbers that each call can give.
pub const NUMBERS: [(&str, &[u8]); 22] = [
    ("check", &[0, 1, 2, 3, 4, 5, 6, 7, 8, 9]),
    ("read", &[0, 1, 2, 3, 4, 5, 6, 7, 8, 9, 17]),
    ("write", &[0, 3, 6, 7, 8, 9, 17]),
    ("lookup", &[0, 1, 2, 3, 4, 5, 6, 7, 8, 9, 15]),
    ("plan", &[0, 1, 2, 3, 4, 5, 6, 7, 8, 9, 17, 20]),
    ("start", &[0, 3]),
    ("ask", &[0, 10, 11, 17]),
    ("report", &[0, 11, 12, 13, 17]),
    ("dry run", &[0, 3, 16, 17]),
    ("dry frame", &[0, 1, 2, 3, 4, 5, 6, 7, 8, 9, 16, 17, 20]),
    ("open recording", &[0, 1, 2, 3, 4, 5, 6, 7, 8, 9, 14, 17, 20]),
    ("rehearse", &[0, 3, 11, 14, 16, 17]),
    ("plan body", &[0, 1, 2, 3, 4, 5, 6, 7, 8, 9, 17, 19, 20]),
    ("body limit", &[0, 3, 17, 18, 19, 20]),
    ("body bound", &[0, 3, 17, 18, 19, 20]),
    ("body start", &[0, 3, 19, 20]),
    ("body ask", &[0, 10, 11, 17]),
    ("body report", &[0, 11, 12, 13, 17]),
    ("body dry frame", &[0, 1, 2, 3, 4, 5, 6, 7, 8, 9, 16, 17, 19, 20]),
    ("on time", &[0]),
    ("reading", &[0, 1, 2, 3, 4, 5, 6, 7, 8, 9, 13, 18]),
    ("refresh", &[0, 1, 2, 3, 4, 5, 6, 7, 8, 9, 14, 15, 16, 17]),
];

/// The events that a good set of inputs meets, beside every grant from 1 to 16, of a body repeated too, and every level as the lowest of a frame.
pub const EVENTS: [&str; 86] = [
    "on time",
    "not on time",
    "spent",
    "ratio",
    "late",
    "coasted",
    "overrun",
    "no overrun",
    "n out",
    "L out",
    "position out",
    "clock out",
    "running out",
    "level out",
    "coast left out",
    "decisions out",
    "frame overrun",
    "frame late",
    "frame with a tail",
    "total frames out",
    "total decisions out",
    "total overruns out",
    "total lates out",
    "body late",
    "body coasted",
    "body not planned by anyone",
    "body overrun",
    "body no overrun",
    "body frame late",
    "body ends past the last clock",
    "body frame with a tail",
    "coast into the next repeat",
    "bound",
    "absent bound",
    "bound by its ends",
    "bound at each",
    "bound of both readings",
    "longest coast by its ends alone",
    "longest coast at each alone",
    "longest coast by both readings",
    "longest coast by no reading",
    "coast to the end by its ends alone",
    "coast to the end at each alone",
    "coast to the end by both readings",
    "coast to the end by no reading",
    "limit below 0",
    "N = 1",
    "N = 1620",
    "all repeats run",
    "body n out",
    "body L out",
    "body cycle out",
    "body N out",
    "a record of no policy decides",
    "a record of no policy coasts",
    "a record of no policy reports",
    "a record of no policy decides as 2005 would not",
    "body position out",
    "body clock out",
    "body running out",
    "body level out",
    "body coast left out",
    "body decisions out",
    "check: 5 at several",
    "check: 5 in the header too",
    "check: 6 at several",
    "check: 7 at several",
    "check: 8 at several",
    "check: 8 above one that comes before it",
    "check: 8 above one that comes after it",
    "write: 6 at several",
    "write: 7 at several",
    "write: 8 at several",
    "write: 8 above one that comes before it",
    "write: 8 above one that comes after it",
    "2005: planned",
    "2005: a limit above that of 2008",
    "2005: a limit that falls",
    "2005: a coast kept short within",
    "2005: a body planned",
    "2005: a body's limit that falls",
    "2005: a body's coast kept short within",
    "2005: a body's late",
    "2005: a body's longest coast by its ends alone",
    "2005: a body's longest coast at each alone",
    "2005: a body's frame",
];

/// The numbers that an action is at fault for, and how many different actions are met with each, of every call that gives it, at the least.
const AT_FAULT: std::ops::RangeInclusive<u8> = 5..=8;
const SEVERAL: usize = 8;

impl Tally {
    fn number(&mut self, call: &'static str, number: u8) {
        *self.numbers.entry((call, number)).or_default() += 1;
    }

    /// The number and the action of a refusal, or 0.
    fn answer<T>(&mut self, call: &'static str, answer: &Answer<T>) {
        self.number(call, answer.as_ref().err().map_or(0, |refused| refused.number));
        if let Err(refused) = answer {
            *self.actions.entry((call, *refused)).or_default() += 1;
        }
    }

    fn event(&mut self, event: impl Into<String>) {
        *self.events.entry(event.into()).or_default() += 1;
    }

    /// How often a call gave a number.
    pub fn met(&self, call: &str, number: u8) -> u64 {
        self.numbers.iter().filter(|((name, no), _)| *name == call && *no == number).map(|(_, count)| count).sum()
    }

    /// How often any call gave a number.
    pub fn met_at_all(&self, number: u8) -> u64 {
        self.numbers.iter().filter(|((_, no), _)| *no == number).map(|(_, count)| count).sum()
    }

    /// The actions that a call gave with a number, each once, [`NO_ACTION`] among them.
    fn named(&self, call: &str, number: u8) -> Vec<u32> {
        let its = self.actions.keys().filter(|(name, refused)| *name == call && refused.number == number);
        its.map(|(_, refused)| u32::from(refused.action)).collect()
    }

    /// What is amiss with them: with 5 to 8 too few are different; with 5 the header is never alone at fault, or with 6 to 8 none is; with any other
    /// number one is.
    fn named_amiss(&self, call: &str, number: u8) -> Option<String> {
        let named = self.named(call, number);
        let none = named.contains(&NO_ACTION);
        let different = named.len() - usize::from(none);
        let amiss = match AT_FAULT.contains(&number) {
            true => different < SEVERAL || none != (number == 5),
            false => different > 0,
        };
        amiss.then(|| format!("{call}: {number} at {named:?}"))
    }

    /// The inputs that were compared, one to a call.
    pub fn inputs(&self) -> u64 {
        self.numbers.values().sum()
    }

    /// What is in [`NUMBERS`] or [`EVENTS`] and was not met, and what was met and is not there.
    pub fn gaps(&self) -> Vec<String> {
        let mut gaps = Vec::new();
        for (call, numbers) in NUMBERS {
            gaps.extend(
                numbers.iter().filter(|&&no| self.met(call, no) == 0).map(|no| format!("{call}: {no} not met")),
            );
            gaps.extend(numbers.iter().filter_map(|&no| self.named_amiss(call, no)));
        }
        for &(call, no) in self.numbers.keys() {
            if !NUMBERS.iter().any(|(name, numbers)| *name == call && numbers.contains(&no)) {
                gaps.push(format!("{call}: {no} is none of its numbers"));
            }
        }
        let grants = (1..=LONGEST_COAST).flat_map(|r| [format!("grant {r}"), format!("body grant {r}")]);
        let lowest = (0..MOST_LEVELS).map(|level| format!("lowest {level}"));
        for event in EVENTS.iter().map(|event| event.to_string()).chain(grants).chain(lowest) {
            if !self.events.contains_key(&event) {
                gaps.push(format!("{event} not met"));
            }
        }
        gaps
    }
}

impl Display for Tally {
    fn fmt(&self, out: &mut fmt::Formatter) -> fmt::Result {
        for (call, _) in NUMBERS {
            write!(out, "{call}:")?;
            for ((_, no), count) in self.numbers.iter().filter(|((name, _), _)| *name == call) {
                write!(out, " {no}\u{d7}{count}")?;
            }
            writeln!(out)?;
        }
        let events: Vec<String> = self.events.iter().map(|(event, count)| format!("{event} {count}")).collect();
        writeln!(out, "{}", events.join(", "))?;
        for number in AT_FAULT {
            let mut named = BTreeMap::<u8, u64>::new();
            for ((_, refused), count) in self.actions.iter().filter(|((_, refused), _)| refused.number == number) {
                *named.entry(refused.action).or_default() += count;
            }
            let named: Vec<String> = named.iter().map(|(action, count)| format!("{action}\u{d7}{count}")).collect();
            writeln!(out, "{number} at action {}", named.join(" "))?;
        }
        let numbers: Vec<String> = (0..=20).map(|no| format!("{no}\u{d7}{}", self.met_at_all(no))).collect();
        writeln!(out, "{} inputs: {}", self.inputs(), numbers.join(" "))
    }
}

/// Compares over `rounds` rounds from a seed. The first difference comes back as text, with its inputs.
pub fn compare(left: &dyn Calls, right: &dyn Calls, seed: u64, rounds: usize) -> Result<Tally, String> {
    let mut pair = Pair { left, right, draw: Draw::new(seed), tally: Tally::default() };
    for round in 0..rounds {
        let size = match pair.draw.between(0, 19) {
            0 => Size::Large,
            1 => Size::Extreme,
            2..=9 => Size::Small,
            _ => Size::Tiny,
        };
        pair.round(size).map_err(|difference| format!("seed {seed}, round {round}: {difference}"))?;
    }
    Ok(pair.tally)
}

struct Pair<'a> {
    left: &'a dyn Calls,
    right: &'a dyn Calls,
    draw: Draw,
    tally: Tally,
}

fn hex(bytes: &[u8]) -> String {
    bytes.iter().take(6000).map(|byte| format!("{byte:02x}")).collect()
}

/// n and L if they are inside their ranges.
fn usable(n: usize, levels: usize) -> Option<(usize, usize)> {
    let fits = (1..=MOST_ACTIONS).contains(&n) && (1..=MOST_LEVELS).contains(&levels);
    fits.then_some((n, levels))
}

/// n and L as the header of an image has them, accepted or not, if they are inside their ranges.
fn in_header(image: &[u8]) -> Option<(usize, usize)> {
    let head = u32::from_be_bytes(*image.first_chunk()?);
    usable((head >> 21 & 127) as usize, (head >> 17 & 15) as usize)
}

/// The longest coast at a level that would be granted if the level above were looked for at its two ends alone.
fn by_ends(bounds: &impl Limits, i: usize, t: i64, q: usize) -> usize {
    let below = |j: usize| q + 1 == bounds.levels() || t > bounds.limit(j, q + 1);
    let qualifies = |r: &usize| t <= bounds.coast_bound(i, q, *r) && below(i) && below(i + r - 1);
    (1..=LONGEST_COAST.min(bounds.positions() - i)).filter(qualifies).max().unwrap_or(1)
}

/// Order, limits, worst times by position and coast bounds, as they are lent to be written.
type Lent = (Vec<u8>, Vec<i32>, Vec<u32>, Vec<i32>);

/// Junk for a lent slice, so that what is left untouched can be seen.
fn junk<T: From<u8> + Copy>(draw: &mut Draw, count: usize) -> Vec<T> {
    (0..count).map(|_| T::from(draw.word() as u8)).collect()
}

impl Pair<'_> {
    /// Runs a call on both sides; the results, which hold the lent slices too, must be equal.
    fn same<T: PartialEq + Debug>(
        &self,
        call: &str,
        input: &dyn Fn() -> String,
        run: impl Fn(&dyn Calls) -> T,
    ) -> Result<T, String> {
        let (left, right) = (run(self.left), run(self.right));
        if left != right {
            return Err(format!("{call} differs on {}\nleft:  {left:?}\nright: {right:?}", input()));
        }
        Ok(left)
    }

    fn round(&mut self, size: Size) -> Result<(), String> {
        let image = self.draw.image(size);
        let counts = self.check(&image)?;
        self.read(&image, counts)?;
        self.lookup(&image, counts)?;
        self.plan(&image, counts)?;
        self.speed_reading(&image, counts)?;
        self.refresh(&image, counts)?;
        self.frame(&image, counts)?;
        self.open_recording(&image)?;
        self.write(size)?;
        self.start()?;
        self.single_calls()?;
        self.foreign_cycle()?;
        if counts.is_some() {
            self.cycles(&image)?;
        }
        self.bodies(size)
    }

    /// The counts of an accepted image.
    fn check(&mut self, image: &[u8]) -> Result<Option<Counts>, String> {
        let answer = self.same("check", &|| hex(image), |calls| calls.check(image))?;
        self.tally.answer("check", &answer);
        if let Err(refused) = answer {
            if refused.number == 5 {
                let spare = spare_bit_set(image);
                self.note_several("check", refused, &spare);
                if !spare.is_empty() && image[5] & 7 != 0 {
                    self.tally.event("check: 5 in the header too");
                }
            } else if AT_FAULT.contains(&refused.number) {
                self.note_faults("check", refused, &unpack(image));
            }
        }
        Ok(answer.ok())
    }

    /// Whether there is more than the lowest to choose from.
    fn note_several(&mut self, call: &str, refused: Refused, at_fault: &[usize]) {
        if at_fault.len() > 1 {
            self.tally.event(format!("{call}: {} at several", refused.number));
        }
    }

    /// The actions of a profile at fault with 6, 7 or 8. Those below the lowest on a loop are on none, yet may come before it or after it.
    fn note_faults(&mut self, call: &str, refused: Refused, profile: &Profile) {
        self.note_several(call, refused, &profile.at_fault(refused));
        if refused.number == 8 {
            let (follows, a) = (Follows::of(profile), usize::from(refused.action));
            for (event, so) in [
                ("before", (0..a).any(|b| follows.must_follow(b, a))),
                ("after", (0..a).any(|b| follows.must_follow(a, b))),
            ] {
                if so {
                    self.tally.event(format!("{call}: 8 above one that comes {event} it"));
                }
            }
        }
    }

    fn read(&mut self, image: &[u8], counts: Option<Counts>) -> Result<(), String> {
        let (n, levels) = counts.map_or((3, 2), |counts| (counts.n, counts.levels));
        let rooms = [n, n, n * levels, n * levels].map(|needed| self.draw.room(needed));
        let masks: Vec<u64> = junk(&mut self.draw, rooms[0]);
        let [deadlines, averages, worst]: [Vec<u32>; 3] = [1, 2, 3].map(|at: usize| junk(&mut self.draw, rooms[at]));
        let result = self.same("read", &|| format!("{} {rooms:?}", hex(image)), |calls| {
            let mut lent = (masks.clone(), deadlines.clone(), averages.clone(), worst.clone());
            let answer = calls.read(image, &mut lent.0, &mut lent.1, &mut lent.2, &mut lent.3);
            (answer, lent)
        })?;
        self.tally.answer("read", &result.0);
        Ok(())
    }

    fn lookup(&mut self, image: &[u8], counts: Option<Counts>) -> Result<(), String> {
        let action = self.draw.name(counts.map_or(5, |counts| counts.n - 1));
        let result = self.same("lookup", &|| format!("{} {action}", hex(image)), |calls| {
            let part = calls.lookup(image, action);
            // Uncopied: the same place. An empty part has none.
            let place = (!part.is_empty()).then_some(part.as_ptr());
            (calls.lookup_refusal(image, action), place, part.len())
        })?;
        self.tally.answer("lookup", &result.0);
        Ok(())
    }

    fn plan(&mut self, image: &[u8], counts: Option<Counts>) -> Result<(), String> {
        let (n, levels) = counts.map_or((3, 2), |counts| (counts.n, counts.levels));
        let (tables, rooms) = self.unplanned(n, levels);
        let policy = self.draw.year();
        let result = self.same("plan", &|| format!("{} {policy} {rooms:?}", hex(image)), |calls| {
            let mut lent = tables.clone();
            let answer = calls.plan(image, policy, &mut lent.0, &mut lent.1, &mut lent.2, &mut lent.3);
            (answer, lent)
        })?;
        self.tally.answer("plan", &result.0);
        if result.0.is_ok() && policy == POLICY_2005 {
            self.note_apart(image, levels, &result.1 .1[..n * levels]);
        }
        Ok(())
    }

    /// The limits of a plan by two tests apart, beside those of the other policy.
    fn note_apart(&mut self, image: &[u8], levels: usize, limits: &[i32]) {
        self.tally.event("2005: planned");
        let cells = limits.len();
        let (mut order, mut mixed) = (vec![0; cells], vec![0; cells]);
        let (mut worst, mut bounds) = (vec![0; cells], vec![0; cells * LONGEST_COAST]);
        let planned = self.left.plan(image, POLICY_2008, &mut order, &mut mixed, &mut worst, &mut bounds);
        assert!(
            planned.is_ok() && limits.iter().zip(&mixed).all(|(apart, mixed)| apart >= mixed),
            "2005 is no stricter"
        );
        if limits != mixed {
            self.tally.event("2005: a limit above that of 2008");
        }
        if limits.iter().zip(limits.iter().skip(levels)).any(|(before, after)| after < before) {
            self.tally.event("2005: a limit that falls");
        }
    }

    /// Tables to be planned into, and their lengths.
    fn unplanned(&mut self, n: usize, levels: usize) -> (Lent, [usize; 4]) {
        let draw = &mut self.draw;
        let rooms = [n, n * levels, n * levels, n * levels * LONGEST_COAST].map(|needed| draw.room(needed));
        ((junk(draw, rooms[0]), junk(draw, rooms[1]), junk(draw, rooms[2]), junk(draw, rooms[3])), rooms)
    }

    /// A recording may be whole frames of a refused image too.
    fn open_recording(&mut self, image: &[u8]) -> Result<(), String> {
        let (n, levels) = in_header(image).unwrap_or((3, 2));
        let (bytes, policy) = (self.draw.recording_bytes(n, levels), self.draw.year());
        let (tables, rooms) = self.unplanned(n, levels);
        let result =
            self.same("open recording", &|| format!("{} {policy} {bytes} {rooms:?}", hex(image)), |calls| {
                let mut lent = tables.clone();
                let answer =
                    calls.open_recording(image, policy, bytes, &mut lent.0, &mut lent.1, &mut lent.2, &mut lent.3);
                (answer, lent)
            })?;
        self.tally.answer("open recording", &result.0);
        Ok(())
    }

    fn speed_reading(&mut self, image: &[u8], counts: Option<Counts>) -> Result<(), String> {
        let Counts { n, levels, cycle } = counts.unwrap_or(Counts { n: 3, levels: 2, cycle: 20 });
        let [mut first, mut last] = [n - 1; 2].map(|most| self.draw.name(most));
        if first > last && !self.draw.once_in(6) {
            (first, last) = (last, first);
        }
        let level = self.draw.name(levels - 1);
        let time = match self.draw.between(0, 9) {
            0 => self.draw.pick(&[LAST_CLOCK, LAST_CLOCK + 1, u32::MAX]),
            1 | 2 => 0,
            _ => self.draw.between(0, cycle),
        };
        let reading = self.same("reading", &|| format!("{} {first} {last} {level} {time}", hex(image)), |calls| {
            calls.speed_reading(image, first, last, level, time)
        })?;
        match reading {
            Reading::Ratio(_) => self.tally.event("ratio"),
            Reading::Spent => self.tally.event("spent"),
            Reading::Refused(_) => {}
        }
        self.tally.answer("reading", &if let Reading::Refused(refused) = reading { Err(refused) } else { Ok(()) });
        let on_time = self.same("on time", &|| format!("{} {first} {last} {level} {time}", hex(image)), |calls| {
            calls.on_time(image, first, last, level, time)
        })?;
        self.tally.number("on time", 0);
        self.tally.event(if on_time { "on time" } else { "not on time" });
        Ok(())
    }

    fn refresh(&mut self, image: &[u8], counts: Option<Counts>) -> Result<(), String> {
        let trace = match counts {
            Some(Counts { n, levels, .. }) => {
                let cells = n * levels;
                let (mut masks, mut heads) = (vec![0; n], vec![0; n]);
                let (mut averages, mut worst) = (vec![0; cells], vec![0; cells]);
                self.left
                    .read(image, &mut masks, &mut heads, &mut averages, &mut worst)
                    .map_err(|refused| refused.to_string())?;
                self.draw.trace(n, levels, &worst)
            }
            None => self.draw.trace(3, 2, &[4, 8, 4, 8, 4, 8]),
        };
        let room = self.draw.room(image.len());
        let fresh: Vec<u8> = junk(&mut self.draw, room);
        let result = self.same("refresh", &|| format!("{} {} {room}", hex(image), hex(&trace)), |calls| {
            let mut lent = fresh.clone();
            let answer = calls.refresh(image, &trace, &mut lent);
            (answer, lent)
        })?;
        self.tally.answer("refresh", &result.0);
        Ok(())
    }

    /// A whole cycle from an image.
    fn frame(&mut self, image: &[u8], counts: Option<Counts>) -> Result<(), String> {
        let (n, levels) = counts.map_or((3, 2), |counts| (counts.n, counts.levels));
        let pace = self.draw.pick(&PACES);
        let longest = self.draw.pick(&[0, 3, 40, 1000, 16_777_215]);
        let mut durations = self.draw.durations(&vec![longest; n * levels], pace);
        durations.resize(self.draw.room(n * levels), 0);
        if let (true, Some(duration)) = (self.draw.once_in(16), durations.last_mut()) {
            *duration = self.draw.pick(&[16_777_215, 16_777_216, u32::MAX]);
        }
        let policy = self.draw.year();
        let rooms = [n; 3].map(|needed| self.draw.room(needed));
        let [order, given, decided]: [Vec<u8>; 3] = rooms.map(|room| junk(&mut self.draw, room));
        let result =
            self.same("dry frame", &|| format!("{} {policy} {durations:?} {rooms:?}", hex(image)), |calls| {
                let mut lent = (order.clone(), given.clone(), decided.clone());
                let answer = calls.dry_frame(image, policy, &durations, &mut lent.0, &mut lent.1, &mut lent.2);
                (answer, lent)
            })?;
        self.tally.answer("dry frame", &result.0);
        Ok(())
    }

    fn write(&mut self, size: Size) -> Result<(), String> {
        let mut sketch = self.draw.writing(size);
        let counts = Counts { n: sketch.n as usize, levels: sketch.levels as usize, cycle: sketch.cycle };
        let (n, levels) = (sketch.masks.len(), sketch.averages.len() / sketch.masks.len());
        let rooms = [n, n, n * levels, n * levels].map(|needed| self.draw.room(needed));
        sketch.masks.resize(rooms[0], 0);
        sketch.deadlines.resize(rooms[1], 0);
        sketch.averages.resize(rooms[2], 0);
        sketch.worst.resize(rooms[3], 0);
        let bytes = 6 + n * (12 + 6 * levels);
        let room = self.draw.room(bytes);
        let image: Vec<u8> = junk(&mut self.draw, room);
        let result = self.same("write", &|| format!("{sketch:?} {room}"), |calls| {
            let mut lent = image.clone();
            let answer =
                calls.write(counts, &sketch.masks, &sketch.deadlines, &sketch.averages, &sketch.worst, &mut lent);
            (answer, lent)
        })?;
        self.tally.answer("write", &result.0);
        if let Err(refused @ Refused { number: 6..=8, .. }) = result.0 {
            let Sketch { masks, deadlines, averages, worst, .. } = &sketch;
            self.note_faults("write", refused, &from_tables(counts, masks, deadlines, averages, worst));
        }
        Ok(())
    }

    /// A start over a record of any content: it is not read.
    fn start(&mut self) -> Result<(), String> {
        let (n, levels) = self.draw.shape();
        let before = self.draw.run(3, 2);
        let result = self.same("start", &|| format!("{before:?} {n} {levels}"), |calls| {
            let mut run = before;
            let number = calls.start_lent(&mut run, n, levels);
            (run, number)
        })?;
        self.tally.number("start", result.1);
        Ok(())
    }

    /// An asking over the lent record, which comes back as the call leaves it.
    fn ask(&mut self, run: Run, order: &[u8], limits: &[i32], bounds: &[i32]) -> Result<Run, String> {
        let asked = self.same("ask", &|| format!("{run:?} {order:?} {limits:?} {bounds:?}"), |calls| {
            let mut run = run;
            let answer = calls.ask_lent(&mut run, order, limits, bounds);
            (run, answer)
        })?;
        self.note_asked(&asked);
        Ok(asked.0)
    }

    /// A report over the lent record.
    fn report(&mut self, run: Run, clock: u32, worst: &[u32]) -> Result<Run, String> {
        let reported = self.same("report", &|| format!("{run:?} {clock} {worst:?}"), |calls| {
            let mut run = run;
            let number = calls.report_lent(&mut run, clock, worst);
            (run, number)
        })?;
        self.tally.number("report", reported.1);
        Ok(reported.0)
    }

    /// Asking and reporting on records at the edges, with tables that no planner wrote.
    fn single_calls(&mut self) -> Result<(), String> {
        for _ in 0..4 {
            let n = self.draw.pick(&[1, 2, 3, 16, 17, 18, 63, 64]);
            let levels = self.draw.between(1, MOST_LEVELS as u32);
            let mut run = self.draw.run(n, levels);
            if self.draw.once_in(2) {
                run = self.draw.edged(run);
            }
            if let Some(field) = fields_out(run).first() {
                self.tally.event(format!("{field} out"));
            }
            // Tables by the record's own counts where these are of use.
            let (n, levels) = usable(run.n as usize, run.levels as usize).unwrap_or((n as usize, levels as usize));
            let (mut limits, mut bounds) = self.draw.foreign_tables(n, levels, run.clock);
            limits.resize(self.draw.room(n * levels), 0);
            bounds.resize(self.draw.room(n * levels * LONGEST_COAST), 0);
            let room = self.draw.room(n);
            let order = self.draw.bytes(room);
            let longest = self.draw.pick(&[0, 1, 5, 1000, u32::MAX]);
            let worst = vec![longest; self.draw.room(n * levels)];
            let clock = self.draw.clock(run, longest);

            self.ask(run, &order, &limits, &bounds)?;
            self.report(run, clock, &worst)?;
        }
        Ok(())
    }

    fn note_asked(&mut self, asked: &(Run, Answer<Given>)) {
        self.tally.answer("ask", &asked.1);
        if let (run, Ok(answer)) = asked {
            if answer.decided {
                self.tally.event(format!("grant {}", run.left + 1));
            } else {
                self.tally.event("coasted");
            }
            if answer.late {
                self.tally.event("late");
            }
        }
    }

    fn dry_run(
        &mut self,
        n: usize,
        levels: usize,
        tables: Tables,
        durations: &[u32],
        needed: usize,
    ) -> Result<(), String> {
        let rooms = [needed; 2].map(|needed| self.draw.room(needed));
        let [given, decided]: [Vec<u8>; 2] = rooms.map(|room| junk(&mut self.draw, room));
        let input = || format!("{n} {levels} {tables:?} {durations:?} {rooms:?}");
        let result = self.same("dry run", &input, |calls| {
            let mut lent = (given.clone(), decided.clone());
            let answer = calls.dry_run(n, levels, tables, durations, &mut lent.0, &mut lent.1);
            (answer, lent)
        })?;
        self.tally.answer("dry run", &result.0);
        if let Ok(cycle) = result.0 {
            self.tally.event(if cycle.overrun { "overrun" } else { "no overrun" });
        }
        Ok(())
    }

    /// A frame on totals, which come back as the call leaves them.
    fn rehearse(
        &mut self,
        totals: Totals,
        n: usize,
        levels: usize,
        tables: Tables,
        frame: &[u8],
    ) -> Result<Totals, String> {
        if let Some(field) = totals_out(totals).first() {
            self.tally.event(format!("total {field} out"));
        }
        let input = || format!("{totals:?} {n} {levels} {tables:?} {}", hex(frame));
        let (answer, totals) = self.same("rehearse", &input, |calls| {
            let mut totals = totals;
            let answer = calls.rehearse(&mut totals, n, levels, tables, frame);
            (answer, totals)
        })?;
        self.tally.answer("rehearse", &answer);
        if let Ok(line) = answer {
            self.note_line(line, frame.len() > 4 * n * levels);
        }
        Ok(totals)
    }

    fn note_line(&mut self, line: Line, tail: bool) {
        self.tally.event(format!("lowest {}", line.lowest));
        for (event, so) in [("frame overrun", line.overrun), ("frame late", line.late), ("frame with a tail", tail)] {
            if so {
                self.tally.event(event);
            }
        }
    }

    /// A dry run and a frame over tables that no planner wrote.
    fn foreign_cycle(&mut self) -> Result<(), String> {
        let (n, levels) = self.draw.shape();
        let (count, width) = usable(n, levels).unwrap_or((4, 2));
        let cells = count * width;
        let centre = self.draw.pick(&[0, 3, 40]);
        let (mut limits, mut bounds) = self.draw.foreign_tables(count, width, centre);
        let mut worst: Vec<u32> = (0..cells).map(|_| self.draw.between(0, 3)).collect();
        let pace = self.draw.pick(&PACES);
        let mut durations = self.draw.durations(&worst, pace);
        let frame = self.draw.frame(&worst, pace);
        limits.resize(self.draw.room(cells), 0);
        worst.resize(self.draw.room(cells), 0);
        bounds.resize(self.draw.room(cells * LONGEST_COAST), 0);
        durations.resize(self.draw.room(cells), 0);
        let tables = Tables { limits: &limits, worst_by_position: &worst, bounds: &bounds };
        self.dry_run(n, levels, tables, &durations, count)?;
        let mut totals = self.draw.totals();
        if self.draw.once_in(3) {
            totals = self.draw.edged_totals(totals);
        }
        self.rehearse(totals, n, levels, tables, &frame)?;
        Ok(())
    }

    /// Dry runs, frames one after another and whole runs over the planner's own tables.
    fn cycles(&mut self, image: &[u8]) -> Result<(), String> {
        const CELLS: usize = MOST_ACTIONS * MOST_LEVELS;
        let (mut order, mut limits) = (vec![0; MOST_ACTIONS], vec![0; CELLS]);
        let (mut worst, mut bounds) = (vec![0; CELLS], vec![0; CELLS * LONGEST_COAST]);
        let policy = self.draw.policy();
        let planned = self.left.plan(image, policy, &mut order, &mut limits, &mut worst, &mut bounds);
        let Counts { n, levels, .. } = planned.map_err(|refused| format!("the plan is {refused}"))?;
        let cells = n * levels;
        let tables = Tables { limits: &limits, worst_by_position: &worst, bounds: &bounds };
        let mut totals = self.draw.totals();
        for pace in PACES {
            let durations = self.draw.durations(&worst[..cells], pace);
            self.dry_run(n, levels, tables, &durations, n)?;
            let frame = self.draw.frame(&worst[..cells], pace);
            totals = self.rehearse(totals, n, levels, tables, &frame)?;
        }
        self.walk(n, levels, (&order, &limits, &worst, &bounds))
    }

    /// Calls by turns until the cycle is over, with a wrong turn now and then.
    fn walk(&mut self, n: usize, levels: usize, tables: (&[u8], &[i32], &[u32], &[i32])) -> Result<(), String> {
        let (order, limits, worst, bounds) = tables;
        let (mut run, _) = self.left.start(n, levels);
        for _ in 0..2 * n + 8 {
            let asks = run.running == self.draw.once_in(16);
            run = if asks {
                let next = self.ask(run, order, limits, bounds)?;
                if next.decisions > run.decisions {
                    let bounds = Bounds { n, levels, limits, bounds };
                    let ends = by_ends(&bounds, run.position as usize, run.clock.into(), next.level as usize);
                    // By the other policy no limit falls: its ends say all.
                    if ends > next.left as usize + 1 {
                        self.tally.event("2005: a coast kept short within");
                    }
                }
                next
            } else {
                let cell = run.position as usize * levels + run.level as usize;
                let longest = worst.get(cell).copied().unwrap_or(0);
                let clock = match self.draw.between(0, 15) {
                    0 => self.draw.clock(run, longest),
                    _ => run.clock + self.draw.between(0, longest),
                };
                self.report(run, clock, worst)?
            };
        }
        Ok(())
    }
}
