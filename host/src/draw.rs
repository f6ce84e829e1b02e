//! Inputs from a seed: profiles small, large, extreme and damaged, durations, traces, frames, run records, totals and tables; bodies to be repeated.

mod bodies;

use crate::calls::{
    Run, Totals, LAST_CLOCK, LONGEST_COAST, LONGEST_TIME, MOST_ACTIONS, MOST_FRAMES, MOST_LEVELS, MOST_RECORDS,
    POLICY_2005, POLICY_2008,
};

/// A small generator (splitmix64): the same seed gives the same inputs everywhere.
#[derive(Clone, Debug)]
pub struct Draw {
    state: u64,
}

/// Plain draws.
impl Draw {
    pub fn new(seed: u64) -> Draw {
        Draw { state: seed }
    }

    pub fn word(&mut self) -> u64 {
        self.state = self.state.wrapping_add(0x9e37_79b9_7f4a_7c15);
        let mixed = (self.state ^ self.state >> 30).wrapping_mul(0xbf58_476d_1ce4_e5b9);
        let mixed = (mixed ^ mixed >> 27).wrapping_mul(0x94d0_49bb_1331_11eb);
        mixed ^ mixed >> 31
    }

    /// A number from `least` to `most`, both included.
    pub fn between(&mut self, least: u32, most: u32) -> u32 {
        let count = u64::from(most - least) + 1;
        least + (self.word() % count) as u32
    }

    pub fn index(&mut self, count: usize) -> usize {
        (self.word() % count as u64) as usize
    }

    /// True once in `of` times.
    pub fn once_in(&mut self, of: u32) -> bool {
        self.between(1, of) == 1
    }

    pub fn pick<T: Copy>(&mut self, from: &[T]) -> T {
        from[self.index(from.len())]
    }

    pub fn bytes(&mut self, count: usize) -> Vec<u8> {
        (0..count).map(|_| self.word() as u8).collect()
    }

    /// The year of a policy that there is.
    pub fn policy(&mut self) -> u32 {
        self.pick(&[POLICY_2005, POLICY_2008])
    }

    /// The same, now and then of one that there is not: near one, or one in its low bits alone.
    pub fn year(&mut self) -> u32 {
        match self.between(0, 11) {
            0 => self.no_policy(),
            _ => self.policy(),
        }
    }

    /// The year of none: near one, one in its low bits alone, or any.
    pub fn no_policy(&mut self) -> u32 {
        let any = self.word() as u32 | 1 << 11;
        self.pick(&[0, 1, 2004, 2006, 2007, 2009, 1 << 16 | POLICY_2005, 1 << 31 | POLICY_2008, any, u32::MAX])
    }

    /// The length of a lent slice: mostly what is needed, now and then longer, seldom short.
    pub fn room(&mut self, needed: usize) -> usize {
        match self.between(0, 31) {
            0 => needed.saturating_sub(1),
            1 => self.index(needed + 1),
            2..=11 => needed + 1 + self.index(5),
            _ => needed,
        }
    }

    /// 0 to n-1 in their order, backwards or mixed.
    fn line(&mut self, n: usize) -> Vec<usize> {
        let mut line: Vec<usize> = (0..n).collect();
        match self.between(0, 3) {
            0 => {}
            1 => line.reverse(),
            _ => {
                for last in (1..n).rev() {
                    line.swap(last, self.index(last + 1));
                }
            }
        }
        line
    }
}

/// An image before packing. Every field may hold what no accepted image has.
#[derive(Clone, Debug)]
pub struct Sketch {
    pub version: u32,
    pub n: u32,
    pub levels: u32,
    pub cycle: u32,
    pub spare: u32,
    pub masks: Vec<u64>,
    pub deadlines: Vec<u32>,
    /// The spare bits of the records; 0 where there is no entry.
    pub spares: Vec<u32>,
    /// By action, then level, as many levels as there are entries for each mask.
    pub averages: Vec<u32>,
    pub worst: Vec<u32>,
}

impl Default for Sketch {
    fn default() -> Sketch {
        Sketch {
            version: 1,
            n: 0,
            levels: 0,
            cycle: 0,
            spare: 0,
            masks: Vec::new(),
            deadlines: Vec::new(),
            spares: Vec::new(),
            averages: Vec::new(),
            worst: Vec::new(),
        }
    }
}

impl Sketch {
    /// The image, as many records as there are masks. Numbers too long for their field lose their high bits.
    pub fn image(&self) -> Vec<u8> {
        let mut bits = Bits::default();
        bits.push(self.version.into(), 4);
        bits.push(self.n.into(), 7);
        bits.push(self.levels.into(), 4);
        bits.push(self.cycle.into(), 30);
        bits.push(self.spare.into(), 3);
        for (a, &mask) in self.masks.iter().enumerate() {
            bits.push(mask, 64);
            bits.push(self.deadlines[a].into(), 30);
            bits.push(self.spares.get(a).copied().unwrap_or(0).into(), 2);
            let width = self.averages.len() / self.masks.len();
            for cell in a * width..(a + 1) * width {
                bits.push(self.averages[cell].into(), 24);
                bits.push(self.worst[cell].into(), 24);
            }
        }
        bits.bytes
    }

    /// The sum of worst times at a level.
    fn total(&self, level: usize) -> u32 {
        self.worst.iter().skip(level).step_by(self.levels as usize).sum()
    }
}

/// Bits pushed one after another, most significant first.
#[derive(Default)]
struct Bits {
    bytes: Vec<u8>,
    used: usize,
}

impl Bits {
    fn push(&mut self, value: u64, count: usize) {
        for place in (0..count).rev() {
            if self.used.is_multiple_of(8) {
                self.bytes.push(0);
            }
            let last = self.bytes.len() - 1;
            self.bytes[last] |= ((value >> place & 1) as u8) << (7 - self.used % 8);
            self.used += 1;
        }
    }
}

/// Sizes of profiles.
#[derive(Clone, Copy, Debug, PartialEq, Eq)]
pub enum Size {
    /// Up to 6 actions, 3 levels, times up to 4.
    Tiny,
    /// Up to 9 actions.
    Small,
    /// Any number of actions and levels.
    Large,
    /// The edges of the ranges.
    Extreme,
}

/// Profiles.
impl Draw {
    /// A profile that obeys the table rule and has no loop; most are accepted, some are unfit.
    pub fn profile(&mut self, size: Size) -> Sketch {
        match size {
            Size::Tiny => {
                let (n, levels, scale) = (self.between(1, 6), self.between(1, 3), self.between(0, 4));
                self.profile_of(n as usize, levels as usize, scale)
            }
            Size::Small => {
                let (n, levels) = (self.between(1, 9), self.between(1, 8));
                let scale = self.pick(&[0, 1, 3, 10, 1000, 70_000]);
                self.profile_of(n as usize, levels as usize, scale)
            }
            Size::Large => {
                let (n, levels) = (self.between(1, 64), self.between(1, 8));
                let scale = self.pick(&[1, 20, 1000, 300_000, LONGEST_TIME]);
                self.profile_of(n as usize, levels as usize, scale)
            }
            Size::Extreme => self.extreme(),
        }
    }

    fn profile_of(&mut self, n: usize, levels: usize, scale: u32) -> Sketch {
        let line = self.line(n);
        let masks = self.masks(&line);
        let (averages, worst) = self.times(n, levels, scale);
        let mut sketch = Sketch {
            n: n as u32,
            levels: levels as u32,
            masks,
            averages,
            worst,
            deadlines: vec![0; n],
            ..Sketch::default()
        };
        let (least, most) = (sketch.total(0), sketch.total(levels - 1));
        sketch.cycle = match self.between(0, 5) {
            0 => least,
            1 => least + self.between(0, scale),
            2 => most,
            _ => self.between(least, most.max(least)),
        }
        .clamp(1, LAST_CLOCK);
        self.deadlines(&mut sketch, &line, scale);
        sketch
    }

    /// Masks that name only actions earlier on the line.
    fn masks(&mut self, line: &[usize]) -> Vec<u64> {
        let mut masks = vec![0; line.len()];
        let one_in = self.pick(&[0, 0, 1, 2, 4, 12]);
        let chain = self.once_in(3);
        for (place, &a) in line.iter().enumerate() {
            for (earlier, &b) in line[..place].iter().enumerate() {
                let next = chain && earlier + 1 == place;
                if next || one_in > 0 && self.once_in(one_in) {
                    masks[a] |= 1 << b;
                }
            }
        }
        masks
    }

    /// Averages and worst times that obey the table rule, each step of a level at most `scale`.
    fn times(&mut self, n: usize, levels: usize, scale: u32) -> (Vec<u32>, Vec<u32>) {
        let (mut averages, mut worst) = (Vec::new(), Vec::new());
        for _ in 0..n {
            let fixed = self.once_in(6);
            let exact = self.once_in(8);
            // Mostly short and seldom long: the averages hardly rise.
            let spiky = self.once_in(4);
            let (mut average, mut longest) = (0, 0);
            for level in 0..levels {
                if level == 0 || !fixed {
                    longest = (longest + self.between(0, scale)).min(LONGEST_TIME);
                    average = match (exact, spiky) {
                        (true, _) => longest,
                        (false, true) => self.between(average, longest.min(average + scale / 8)),
                        (false, false) => self.between(average, longest),
                    };
                }
                averages.push(average);
                worst.push(longest);
            }
        }
        (averages, worst)
    }

    /// Deadlines after the ends of the line at level 0: none, some, exact, one too early, or anyhow.
    fn deadlines(&mut self, sketch: &mut Sketch, line: &[usize], scale: u32) {
        let way = self.between(0, 6);
        let mut end = 0;
        for &a in line {
            end += sketch.worst[a * sketch.levels as usize];
            let deadline = match way {
                0 | 1 => 0,
                2 if self.once_in(2) => 0,
                2 | 3 => end.saturating_add(self.between(0, scale.saturating_mul(2))),
                4 => end,
                5 => self.between(end.min(sketch.cycle), sketch.cycle),
                _ => self.between(0, sketch.cycle),
            };
            sketch.deadlines[a] = deadline.min(sketch.cycle);
        }
        if self.once_in(6) {
            let a = self.index(line.len());
            sketch.deadlines[a] = sketch.deadlines[a].saturating_sub(1);
        }
    }

    fn extreme(&mut self) -> Sketch {
        let n = self.pick(&[1, 2, 63, 64, 64]);
        let levels = self.pick(&[1, 2, 7, 8, 8]);
        let cells = n * levels;
        let line = self.line(n);
        let mut sketch = Sketch {
            n: n as u32,
            levels: levels as u32,
            masks: self.masks(&line),
            deadlines: vec![0; n],
            averages: vec![0; cells],
            worst: vec![0; cells],
            ..Sketch::default()
        };
        match self.between(0, 5) {
            // All times 0.
            0 => {}
            // All times at the top.
            1 => {
                sketch.averages.fill(LONGEST_TIME);
                sketch.worst.fill(LONGEST_TIME);
            }
            // Averages 0, worst times at the top.
            2 => sketch.worst.fill(LONGEST_TIME),
            // Level 0 takes nothing, the others all there is: limits far below 0.
            3 => {
                for cell in (0..cells).filter(|cell| cell % levels > 0) {
                    sketch.worst[cell] = LONGEST_TIME;
                    sketch.averages[cell] = if self.once_in(2) { LONGEST_TIME } else { sketch.averages[cell - 1] };
                }
            }
            // One action takes all.
            4 => {
                let a = self.index(n);
                sketch.worst[a * levels..(a + 1) * levels].fill(LONGEST_TIME);
            }
            // Long bounds: the top level always fits.
            _ => {
                for cell in 0..cells {
                    let level = (cell % levels) as u32;
                    (sketch.averages[cell], sketch.worst[cell]) = (level, level + 1);
                }
            }
        }
        let (least, most) = (sketch.total(0), sketch.total(levels - 1));
        let cycle = self.pick(&[least, least.saturating_sub(1), least + 1, most, 1, LAST_CLOCK]);
        sketch.cycle = cycle.clamp(1, LAST_CLOCK);
        if self.once_in(2) {
            self.deadlines(&mut sketch, &line, 1);
        }
        sketch
    }

    /// An image of any kind, about half of them accepted.
    pub fn image(&mut self, size: Size) -> Vec<u8> {
        let sketch = self.profile(size);
        if self.once_in(3) {
            self.damaged(sketch)
        } else {
            sketch.image()
        }
    }

    /// An image with one fault or several; now and then the fault changes nothing.
    pub fn damaged(&mut self, mut sketch: Sketch) -> Vec<u8> {
        let faults = self.pick(&[1, 1, 1, 2, 3]);
        for _ in 0..faults {
            self.spoil(&mut sketch);
        }
        let mut image = sketch.image();
        match self.between(0, 11) {
            0 => image.truncate(self.index(7)),
            1 => image.truncate(image.len() - 1),
            2 => image.push(0),
            3 => image = self.noise(image.len()),
            4 => {
                for _ in 0..self.between(1, 3) {
                    let bit = self.index(image.len() * 8);
                    image[bit / 8] ^= 1 << (bit % 8);
                }
            }
            _ => {}
        }
        image
    }

    /// Any bytes, mostly with a version that is read on.
    fn noise(&mut self, length: usize) -> Vec<u8> {
        let mut bytes = self.bytes(length);
        if !self.once_in(4) {
            bytes[0] = 0x10 | bytes[0] & 15;
        }
        bytes
    }

    /// A fault of one number, those of actions at one or at some of them.
    fn spoil(&mut self, sketch: &mut Sketch) {
        let n = sketch.masks.len();
        let levels = sketch.averages.len() / n;
        let count = self.pick(&[1, 1, 2, 3]);
        let actions: Vec<usize> = (0..count).map(|_| self.index(n)).collect();
        match self.pick(&[2, 3, 4, 5, 5, 6, 6, 7, 7, 8, 8, 8, 9]) {
            2 => sketch.version = self.pick(&[0, 2, 3, 5, 9, 15]),
            3 => match self.between(0, 4) {
                0 => sketch.n = self.pick(&[0, 65, 127]),
                1 => sketch.levels = self.pick(&[0, 9, 15]),
                2 => sketch.cycle = 0,
                3 => sketch.n = self.between(1, 64),
                _ => sketch.levels = self.between(1, 8),
            },
            4 => self.resize(sketch),
            5 => {
                let header = self.once_in(3);
                sketch.spare = if header { self.between(1, 7) } else { sketch.spare };
                sketch.spares.resize(n, 0);
                if !header || self.once_in(2) {
                    actions.into_iter().for_each(|a| sketch.spares[a] = self.between(1, 3));
                }
            }
            6 => actions.into_iter().for_each(|a| self.put_out_of_range(sketch, a)),
            7 => actions.into_iter().for_each(|a| {
                let cell = a * levels + self.index(levels);
                self.break_table_rule(sketch, cell);
            }),
            8 => self.close_loop(sketch, &actions),
            _ => {
                let least = sketch.total_at_least(levels);
                sketch.cycle = self.between(1, least.max(1));
                for deadline in &mut sketch.deadlines {
                    *deadline = (*deadline).min(sketch.cycle);
                }
            }
        }
    }

    /// A deadline above the cycle, or a mask that names an action too many.
    fn put_out_of_range(&mut self, sketch: &mut Sketch, a: usize) {
        let n = sketch.masks.len();
        if n < MOST_ACTIONS && self.once_in(2) {
            sketch.masks[a] |= 1 << self.between(n as u32, 63);
        } else {
            sketch.deadlines[a] = self.pick(&[sketch.cycle.saturating_add(1), LAST_CLOCK]);
        }
    }

    /// An average above its worst time, or a time that may then fall with the level.
    fn break_table_rule(&mut self, sketch: &mut Sketch, cell: usize) {
        match self.between(0, 3) {
            0 | 1 => sketch.averages[cell] = sketch.worst[cell].saturating_add(1),
            2 => sketch.worst[cell] = sketch.worst[cell].saturating_sub(1),
            _ => sketch.averages[cell] = sketch.averages[cell].saturating_sub(1),
        }
    }

    /// A loop through some actions, and steps between it and others, many of them lower, that come before it or after it; now and then another loop.
    fn close_loop(&mut self, sketch: &mut Sketch, actions: &[usize]) {
        for (place, &a) in actions.iter().enumerate() {
            sketch.masks[a] |= 1 << actions[(place + 1) % actions.len()];
        }
        for _ in 0..self.between(0, 3) {
            let on = self.pick(actions);
            let among = self.pick(&[sketch.masks.len(), on + 1]);
            let other = self.index(among);
            match self.between(0, 6) {
                0 => sketch.masks[other] |= 1 << other,
                1..=3 => sketch.masks[on] |= 1 << other,
                _ => sketch.masks[other] |= 1 << on,
            }
        }
    }

    /// A record too many or too few, while the header stays.
    fn resize(&mut self, sketch: &mut Sketch) {
        let width = sketch.averages.len() / sketch.masks.len();
        if sketch.masks.len() > 1 && self.once_in(2) {
            sketch.masks.pop();
        } else {
            sketch.masks.push(0);
        }
        let n = sketch.masks.len();
        sketch.deadlines.resize(n, 0);
        sketch.averages.resize(n * width, 0);
        sketch.worst.resize(n * width, 0);
    }
}

impl Sketch {
    /// The sum of worst times at level 0, whatever the header says.
    fn total_at_least(&self, levels: usize) -> u32 {
        self.worst.iter().step_by(levels).fold(0u32, |sum, &time| sum.saturating_add(time)).min(LAST_CLOCK)
    }
}

/// What is to be written, with every kind of fault that a writing can have.
impl Draw {
    /// A sketch to be written: unlike an image's, its times and deadlines may be longer than their fields.
    pub fn writing(&mut self, size: Size) -> Sketch {
        let mut sketch = self.profile(size);
        if self.once_in(2) {
            return sketch;
        }
        for _ in 0..self.pick(&[1, 1, 2]) {
            match self.between(0, 9) {
                0 => sketch.n = self.pick(&[0, 65, u32::MAX]),
                1 => sketch.levels = self.pick(&[0, 9, u32::MAX]),
                2 => sketch.cycle = self.pick(&[0, LAST_CLOCK + 1, u32::MAX]),
                3..=5 => (0..self.pick(&[1, 1, 2, 3])).for_each(|_| self.overflow(&mut sketch)),
                _ => {
                    let spare = (sketch.masks.len(), sketch.averages.len());
                    self.spoil(&mut sketch);
                    sketch.masks.resize(spare.0, 0);
                    sketch.deadlines.resize(spare.0, 0);
                    sketch.averages.resize(spare.1, 0);
                    sketch.worst.resize(spare.1, 0);
                }
            }
        }
        sketch
    }

    /// A time or a deadline longer than its field.
    fn overflow(&mut self, sketch: &mut Sketch) {
        let (a, cell) = (self.index(sketch.masks.len()), self.index(sketch.averages.len()));
        match self.between(0, 2) {
            0 => sketch.worst[cell] = self.pick(&[LONGEST_TIME + 1, u32::MAX]),
            1 => sketch.averages[cell] = self.pick(&[LONGEST_TIME + 1, u32::MAX]),
            _ => sketch.deadlines[a] = self.pick(&[LAST_CLOCK + 1, u32::MAX]),
        }
    }
}

/// How durations relate to the worst times.
#[derive(Clone, Copy, Debug, PartialEq, Eq)]
pub enum Pace {
    Zero,
    Within,
    Worst,
    /// Some longer than worst.
    Over,
    /// Some longer than any time may be.
    Absent,
}

pub const PACES: [Pace; 5] = [Pace::Zero, Pace::Within, Pace::Worst, Pace::Over, Pace::Absent];

/// Durations, traces, tables and run records.
impl Draw {
    /// Durations for a table of worst times by position and level.
    pub fn durations(&mut self, worst: &[u32], pace: Pace) -> Vec<u32> {
        let mut durations: Vec<u32> = worst
            .iter()
            .map(|&longest| match pace {
                Pace::Zero => 0,
                Pace::Worst => longest,
                Pace::Over if self.once_in(4) => longest.saturating_add(self.between(1, 3)).min(LONGEST_TIME),
                _ => self.between(0, longest.min(LONGEST_TIME)),
            })
            .collect();
        if pace == Pace::Absent && !durations.is_empty() {
            let cell = self.index(durations.len());
            durations[cell] = self.pick(&[LONGEST_TIME + 1, u32::MAX]);
        }
        durations
    }

    /// A trace for worst times by action and level.
    pub fn trace(&mut self, n: usize, levels: usize, worst: &[u32]) -> Vec<u8> {
        let (n, levels) = (n as u32, levels as u32);
        let records = match self.between(0, 199) {
            0 => MOST_RECORDS + self.index(2),
            1..=20 => 0,
            _ => self.index(60),
        };
        let mut bits = Bits::default();
        for _ in 0..records {
            let (action, level) = (self.between(0, n - 1), self.between(0, levels - 1));
            let longest = worst[(action * levels + level) as usize];
            let duration = match self.between(0, 7) {
                0 => longest,
                1 => 0,
                _ => self.between(0, longest),
            };
            self.record(&mut bits, action, level, duration);
        }
        if records < MOST_RECORDS && self.once_in(4) {
            for _ in 0..self.between(1, 2) {
                let (most, top) = if self.once_in(2) { (n - 1, levels - 1) } else { (63, 7) };
                let (action, level) = (self.between(0, most), self.between(0, top));
                let cell = (action * levels + level) as usize;
                let longest = if action < n && level < levels { worst[cell] } else { 0 };
                let duration = self.pick(&[longest, longest + 1, LAST_CLOCK]);
                self.record(&mut bits, action, level, duration);
            }
        }
        let mut trace = bits.bytes;
        if self.once_in(16) {
            let more = self.between(1, 4) as usize;
            trace.resize(trace.len() + more, 0);
        }
        trace
    }

    fn record(&mut self, bits: &mut Bits, action: u32, level: u32, duration: u32) {
        let open = !self.once_in(4);
        bits.push(open.into(), 1);
        bits.push(action.into(), 6);
        bits.push(level.into(), 3);
        bits.push(duration.into(), 30);
    }

    /// Numbers that no planner wrote, many of them close to a clock.
    pub fn foreign(&mut self, count: usize, clock: u32) -> Vec<i32> {
        let clock = clock.min(LAST_CLOCK) as i32;
        let spread = self.between(1, 3) as i32;
        (0..count)
            .map(|_| match self.between(0, 15) {
                0 => i32::MIN,
                1 => i32::MAX,
                2 => self.word() as i32,
                _ => clock - spread + self.between(0, 2 * spread as u32) as i32,
            })
            .collect()
    }

    /// Limits and coast bounds that no planner wrote, such that long bounds are frequent.
    pub fn foreign_tables(&mut self, n: usize, levels: usize, clock: u32) -> (Vec<i32>, Vec<i32>) {
        let mut limits = self.foreign(n * levels, clock);
        let mut bounds = self.foreign(n * levels * LONGEST_COAST, clock);
        if self.once_in(2) {
            // One level fits, the others do not.
            let level = self.index(levels);
            for (cell, limit) in limits.iter_mut().enumerate() {
                if !self.once_in(20) {
                    *limit = if cell % levels == level { i32::MAX } else { i32::MIN };
                }
            }
        }
        if self.once_in(4) {
            bounds.fill(i32::MAX);
        }
        (limits, bounds)
    }

    /// A run record with every field inside its range, for n and L inside theirs.
    pub fn run(&mut self, n: u32, levels: u32) -> Run {
        let position = self.between(0, n);
        let running = position < n && self.once_in(2);
        let reached = position + u32::from(running);
        let left = if self.once_in(2) { 0 } else { self.between(0, (n - reached).min(15)) };
        Run {
            n,
            levels,
            position,
            running,
            clock: self.pick(&[0, 1, 5, 20, 1000, LAST_CLOCK - 1, LAST_CLOCK]),
            level: self.between(0, levels - 1),
            left,
            decisions: self.between(0, reached),
            overrun: self.once_in(2),
            late: self.once_in(2),
        }
    }

    /// The same with a field at its edge or over it.
    pub fn edged(&mut self, mut run: Run) -> Run {
        let reached = run.position + u32::from(run.running);
        match self.between(0, 8) {
            0 => run.n = self.pick(&[0, 1, 64, 65, u32::MAX]),
            1 => run.levels = self.pick(&[0, 1, 8, 9, u32::MAX]),
            2 => run.position = self.edge(run.n),
            3 => run.clock = self.edge(LAST_CLOCK),
            4 => run.level = self.edge(run.levels - 1),
            5 => run.left = self.edge(15),
            6 => run.left = self.edge(run.n.saturating_sub(reached)),
            7 => run.decisions = self.edge(reached),
            _ => run.running = !run.running,
        }
        run
    }

    /// A field at its limit, over it by a little, or by all that its width lets.
    fn edge(&mut self, limit: u32) -> u32 {
        match self.pick(&[0, 0, 1, 1, 2, u32::MAX]) {
            u32::MAX => u32::MAX,
            over => limit + over,
        }
    }

    /// A clock for a report: near the last one, or at an edge.
    pub fn clock(&mut self, run: Run, longest: u32) -> u32 {
        self.clock_after(run.clock, longest)
    }

    /// The same after a last one, of any record.
    pub fn clock_after(&mut self, last: u32, longest: u32) -> u32 {
        match self.between(0, 9) {
            0 => last,
            1 => last.saturating_sub(self.between(1, 3)),
            2 => LAST_CLOCK,
            3 => self.pick(&[LAST_CLOCK + 1, u32::MAX]),
            4 => last.saturating_add(longest),
            5 => last.saturating_add(longest).saturating_add(1),
            _ => last.saturating_add(self.between(0, longest.min(LONGEST_TIME))),
        }
    }

    /// A number up to `most`, now and then over it.
    pub fn name(&mut self, most: usize) -> usize {
        match self.between(0, 11) {
            0 => most + 1,
            1 => self.pick(&[64, 255, u32::MAX as usize, 1 << 32, usize::MAX]),
            _ => self.between(0, most as u32) as usize,
        }
    }

    /// n and L, mostly inside their ranges.
    pub fn shape(&mut self) -> (usize, usize) {
        (self.count(MOST_ACTIONS), self.count(MOST_LEVELS))
    }

    /// From 1 to the most, or now and then outside, by a little and by as much as a width of 64 bits lets.
    fn count(&mut self, most: usize) -> usize {
        if self.once_in(12) {
            return self.pick(&[0, most + 1, u32::MAX as usize, (1 << 32) + 1, usize::MAX]);
        }
        self.between(1, most as u32) as usize
    }
}

/// Durations as files and frames have them: four bytes each, high byte first.
pub fn big_endian(durations: &[u32]) -> Vec<u8> {
    durations.iter().flat_map(|duration| duration.to_be_bytes()).collect()
}

/// Recordings, their frames and their totals.
impl Draw {
    /// The bytes of a recording: mostly whole frames, about the most that there may be among them; now and then some bytes off, or as many as a
    /// width of 64 bits lets.
    pub fn recording_bytes(&mut self, n: usize, levels: usize) -> usize {
        let frame = 4 * n * levels;
        let frames = match self.between(0, 7) {
            0 => 0,
            1 | 2 => MOST_FRAMES - 1 + self.index(3),
            _ => self.index(40),
        };
        let whole = frames * frame;
        match self.between(0, 11) {
            0 => whole + 1,
            1 => whole.saturating_sub(1),
            2 => whole + self.index(frame),
            3 => self.pick(&[whole + (1 << 32), usize::MAX, usize::MAX - usize::MAX % frame]),
            _ => whole,
        }
    }

    /// A frame for a table of worst times by position and level: mostly of its own length, now and then with any bytes after it, seldom short.
    pub fn frame(&mut self, worst: &[u32], pace: Pace) -> Vec<u8> {
        let mut frame = big_endian(&self.durations(worst, pace));
        let room = self.room(frame.len());
        let tail = self.bytes(room.saturating_sub(frame.len()));
        frame.extend(tail);
        frame.truncate(room);
        frame
    }

    /// Totals with every field inside its range.
    pub fn totals(&mut self) -> Totals {
        let most = MOST_FRAMES as u32;
        let frames = match self.between(0, 3) {
            0 => 0,
            1 => self.between(most - 4, most),
            _ => self.between(0, most),
        };
        let decisions = self.between(0, MOST_ACTIONS as u32 * frames);
        Totals { frames, decisions, overruns: self.between(0, frames), lates: self.between(0, frames) }
    }

    /// The same with a field at its edge or over it.
    pub fn edged_totals(&mut self, mut totals: Totals) -> Totals {
        match self.between(0, 3) {
            // Of 1 << 26 frames the most decisions would be 0 in 32 bits.
            0 => totals.frames = self.pick(&[4095, 4096, 4097, 1 << 26, u32::MAX]),
            1 => totals.decisions = self.edge(MOST_ACTIONS as u32 * totals.frames),
            2 => totals.overruns = self.edge(totals.frames),
            _ => totals.lates = self.edge(totals.frames),
        }
        totals
    }
}
