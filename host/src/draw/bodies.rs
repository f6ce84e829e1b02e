//! Bodies repeated: images, repeats, records and summaries.

use super::{Draw, Size};
use crate::calls::{Body, BodyRun, LAST_CLOCK, MOST_LEVELS, MOST_REPEATS, SUMMARY_NUMBERS};

impl Draw {
    /// How often a body is repeated: mostly a few times, at its edges too, now and then over them.
    pub fn repeats(&mut self) -> u32 {
        match self.between(0, 15) {
            0 => self.pick(&[0, MOST_REPEATS + 1, u32::MAX]),
            1 => MOST_REPEATS,
            2 => self.between(1, MOST_REPEATS),
            3 | 4 => 1,
            _ => self.between(1, 9),
        }
    }

    /// An image to be repeated so often: mostly with all deadlines the cycle's and a cycle about what the repeats need.
    pub fn body_image(&mut self, size: Size, repeats: u32) -> Vec<u8> {
        let mut sketch = self.profile(size);
        if !self.once_in(12) {
            let times = u64::from(repeats.clamp(1, MOST_REPEATS));
            let least = times * u64::from(sketch.total(0));
            let most = times * u64::from(sketch.total(sketch.levels as usize - 1));
            let cycle = match self.between(0, 6) {
                0 => least,
                1 => least.saturating_sub(1),
                2 => least + u64::from(self.between(0, 40)),
                3 => most,
                _ => least + self.word() % (most - least + 1),
            };
            sketch.cycle = cycle.clamp(1, LAST_CLOCK.into()) as u32;
            for deadline in &mut sketch.deadlines {
                *deadline = self.pick(&[0, 0, sketch.cycle]);
            }
            if self.once_in(16) {
                let a = self.index(sketch.deadlines.len());
                sketch.deadlines[a] = self.pick(&[1, sketch.cycle - 1, sketch.cycle]).min(sketch.cycle);
            }
        }
        if self.once_in(4) {
            self.damaged(sketch)
        } else {
            sketch.image()
        }
    }

    /// A body with every number inside its range, the edges among them.
    pub fn body(&mut self) -> Body {
        Body {
            n: self.pick(&[1, 1, 2, 3, 5, 16, 17, 63, 64]),
            levels: self.between(1, MOST_LEVELS as u32),
            cycle: self.pick(&[1, 5, 40, 1000, LAST_CLOCK - 1, LAST_CLOCK]),
            repeats: self.pick(&[1, 1, 2, 3, 4, 17, MOST_REPEATS - 1, MOST_REPEATS]),
            policy: self.policy(),
        }
    }

    /// The same with a number at its edge or over it.
    pub fn edged_body(&mut self, mut body: Body) -> Body {
        match self.between(0, 4) {
            0 => body.n = self.pick(&[0, 1, 64, 65, u32::MAX]),
            1 => body.levels = self.pick(&[0, 1, 8, 9, u32::MAX]),
            2 => body.cycle = self.pick(&[0, 1, LAST_CLOCK, LAST_CLOCK + 1, u32::MAX]),
            3 => body.repeats = self.pick(&[0, 1, MOST_REPEATS, MOST_REPEATS + 1, u32::MAX]),
            _ => body.policy = self.no_policy(),
        }
        body
    }

    /// A run record with every field inside its range, for a body inside its own: many at the end of the cycle or at that of a repeat. Its policy may
    /// be any number.
    pub fn body_run(&mut self, body: Body) -> BodyRun {
        let positions = body.n * body.repeats;
        let position = match self.between(0, 5) {
            0 => positions,
            1 => positions - self.between(0, positions.min(18)),
            2 => 0,
            3 => body.n * self.between(0, body.repeats - 1) + self.between(0, body.n - 1),
            _ => self.between(0, positions),
        };
        let running = position < positions && self.once_in(2);
        let reached = position + u32::from(running);
        BodyRun {
            clock: self.pick(&[0, 1, 5, 20, 1000, LAST_CLOCK - 1, LAST_CLOCK]).into(),
            body: self.any_policy(body),
            position,
            level: self.between(0, body.levels - 1),
            left: if self.once_in(2) { 0 } else { self.between(0, (positions - reached).min(15)) as u8 },
            decisions: self.between(0, reached),
            running,
            overrun: self.once_in(2),
            late: self.once_in(2),
        }
    }

    /// The body of a record: its policy is now and then none.
    pub fn any_policy(&mut self, body: Body) -> Body {
        match self.between(0, 3) {
            0 => Body { policy: self.no_policy(), ..body },
            _ => body,
        }
    }

    /// The same with a field at its edge or over it.
    pub fn edged_body_run(&mut self, mut run: BodyRun) -> BodyRun {
        let reached = run.position + u32::from(run.running);
        let positions = run.body.n * run.body.repeats;
        match self.between(0, 9) {
            0..=2 => run.body = self.edged_body(run.body),
            3 => run.position = self.edge(positions),
            4 => run.clock = self.pick(&[LAST_CLOCK.into(), u64::from(LAST_CLOCK) + 1, 1 << 32, u64::MAX]),
            5 => run.level = self.edge(run.body.levels - 1),
            6 => run.left = self.edged_left(15),
            7 => run.left = self.edged_left(positions - reached),
            8 => run.decisions = self.edge(reached),
            _ => run.running = !run.running,
        }
        run
    }

    /// What is left of a coast, a byte: at a limit, over it by a little, or anything above 15.
    fn edged_left(&mut self, limit: u32) -> u8 {
        let most = u32::from(u8::MAX);
        let left = if self.once_in(4) { self.between(16, most) } else { self.edge(limit) };
        left.min(most) as u8
    }

    /// Summaries that no planner wrote, for a body and a clock: any words, or such that many limits are close to the clock.
    pub fn foreign_summaries(&mut self, body: Body, clock: u64) -> Vec<u32> {
        let cells = body.n as usize * body.levels as usize;
        if self.once_in(4) {
            return (0..cells * SUMMARY_NUMBERS).map(|_| self.word() as u32).collect();
        }
        // A third number that gives a limit at the clock, and sums that hardly grow from body to body. V falls from place to place, or not at all, and so says
        // more or less of a coast than the worst times do.
        let room = u64::from(body.cycle).saturating_sub(clock) as u32;
        let (spread, growth) = (self.between(0, 3), self.pick(&[0, 0, 1, 3]));
        let (fall, uneven) = (self.pick(&[0, 0, 1, 5, 1000, 1 << 24]), self.pick(&[0, 0, 1, 3]));
        let fitting = self.once_in(2).then(|| self.index(body.levels as usize));
        let mut summaries = Vec::new();
        for cell in 0..cells {
            let near = room.saturating_sub(spread).saturating_add(self.between(0, 2 * spread));
            let mix = match fitting {
                // One level fits, the others do not.
                Some(level) if !self.once_in(20) && cell % body.levels as usize == level => self.between(0, room),
                Some(_) if !self.once_in(20) => room.saturating_add(1 + self.between(0, 3)),
                _ => near,
            };
            // Bodies after one may add theirs to A: it is left small there too.
            let mix = if cell < body.levels as usize && self.once_in(2) { mix / 2 } else { mix };
            let rest = body.n - cell as u32 / body.levels;
            let worst = fall * rest + self.between(0, uneven);
            // Where the tests are apart A may be what counts.
            let average = if self.once_in(6) { near } else { self.between(0, growth) };
            summaries.extend([average, self.between(0, growth), mix, worst]);
        }
        summaries
    }

    /// Summaries and worst times that no planner wrote, for a body of which so much of the cycle is left: every level mostly fits at first, and what
    /// is left runs out within a coast or not, by the worst times as by V, which have little to do with each other.
    pub fn apart(&mut self, body: Body, left: u32) -> (Vec<u32>, Vec<u32>) {
        let [longest, fall, uneven] = [0; 3].map(|_| self.pick(&[0, 0, 1, 2, 5]));
        let (growth, needed) = (self.pick(&[0, 0, 0, 1]), self.between(0, left));
        let (mut summaries, mut worst) = (Vec::new(), Vec::new());
        for cell in 0..body.n * body.levels {
            let rest = body.n - cell / body.levels;
            let mix = self.between(0, needed) + u32::from(self.once_in(60));
            let all = fall * rest + self.between(0, uneven);
            summaries.extend([self.between(0, growth), self.between(0, growth), mix, all]);
            worst.push(self.between(0, longest));
        }
        (summaries, worst)
    }
}
