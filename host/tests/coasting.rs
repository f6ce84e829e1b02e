//! Demand 3 by enumeration: for durations from zero to worst no deadline is missed, every level is that of the manager asked before
//! the action, and no way of coasting that can't differ decides less often. Of the definitions and of the product, of a body repeated too, by both
//! policies.

mod common;

use nyokazerubi_host::calls::{Answer, Calls, Dried, Reference, Tables, LONGEST_COAST, SUMMARY_NUMBERS};
use nyokazerubi_host::draw::{Draw, Size, Sketch};
use nyokazerubi_host::product::Product;
use nyokazerubi_host::reference::{accept_but_unfit, Planned, Policy, Unrolled};
use std::collections::HashMap;

/// What a cycle is run by: the planner's limits, worst times and coast bounds; or the image of a body that is repeated so often, and a policy.
enum Ran {
    Tables(Vec<i32>, Vec<u32>, Vec<i32>),
    Repeated(Vec<u8>, u32, Policy),
}

impl Ran {
    /// The dry run over durations by position and level.
    fn dry(
        &self,
        calls: &dyn Calls,
        planned: &Planned,
        durations: &[u32],
        given: &mut [u8],
        marks: &mut [u8],
    ) -> Answer<Dried> {
        match self {
            Ran::Tables(limits, worst, bounds) => {
                let tables = Tables { limits, worst_by_position: worst, bounds };
                calls.dry_run(planned.n, planned.levels, tables, durations, given, marks)
            }
            Ran::Repeated(image, repeats, policy) => {
                let order = &mut [0; 64];
                let cycle = calls.body_dry_frame(image, *repeats, policy.year(), durations, order, given, marks)?;
                assert_eq!(cycle.positions as usize, planned.n);
                let (decisions, end) = (cycle.decisions, cycle.end as u32);
                Ok(Dried { decisions, end, overrun: cycle.overrun, late: cycle.late })
            }
        }
    }
}

/// A planned profile with what was found about it.
struct Trial {
    planned: Planned,
    limits: Vec<Vec<i64>>,
    ran: Ran,
    steady: HashMap<(usize, i64, usize), bool>,
    cycles: usize,
    /// Coasts that would be longer if the level above were looked for at their ends alone.
    short: usize,
}

impl Trial {
    /// None if the profile is refused.
    fn new(sketch: &Sketch, policy: Policy) -> Option<Trial> {
        let (n, cells) = (sketch.n as usize, sketch.averages.len());
        let (mut order, mut limits) = (vec![0; n], vec![0; cells]);
        let (mut worst, mut bounds) = (vec![0; cells], vec![0; cells * LONGEST_COAST]);
        let (image, year) = (sketch.image(), policy.year());
        Reference.plan(&image, year, &mut order, &mut limits, &mut worst, &mut bounds).ok()?;
        let mut planned = (vec![9; n], vec![9; cells], vec![9; cells], vec![9; cells * LONGEST_COAST]);
        let answer = Product.plan(&image, year, &mut planned.0, &mut planned.1, &mut planned.2, &mut planned.3);
        assert!(answer.is_ok(), "the product's plan of {sketch:?}");
        assert_eq!(planned, (order, limits.clone(), worst.clone(), bounds.clone()), "the product's plan of {sketch:?}");
        let planned = Planned::of(&common::profile(sketch));
        Some(Trial::of(planned, policy, Ran::Tables(limits, worst, bounds)))
    }

    /// Of a body repeated, as it is unrolled; none if it is refused.
    fn repeated(image: &[u8], repeats: u32, policy: Policy, most: usize) -> Option<Trial> {
        let profile = accept_but_unfit(image).ok()?;
        if repeats == 0 || profile.n * repeats as usize > most {
            return None;
        }
        let cells = profile.n * profile.levels;
        let (mut order, mut summaries, mut worst) =
            (vec![0; profile.n], vec![0; SUMMARY_NUMBERS * cells], vec![0; cells]);
        Product.plan_body(image, repeats, policy.year(), &mut order, &mut summaries, &mut worst).ok()?;
        let planned = Unrolled::of(&profile, repeats as usize, policy).planned;
        Some(Trial::of(planned, policy, Ran::Repeated(image.to_vec(), repeats, policy)))
    }

    fn of(planned: Planned, policy: Policy, ran: Ran) -> Trial {
        let limits = planned.limits(policy);
        Trial { planned, limits, ran, steady: HashMap::new(), cycles: 0, short: 0 }
    }

    /// The manager asked at position i and time t.
    fn asked(&self, i: usize, t: i64) -> usize {
        let fits = |q: &usize| t <= self.limits[i][*q];
        let level = (0..self.planned.levels).rev().find(fits);
        level.unwrap_or_else(|| panic!("late at position {i}, time {t}"))
    }

    /// Whether all durations from zero to worst at q, from position j at a time on, leave the asked level at q up to the last position.
    fn holds(&self, j: usize, time: i64, q: usize, last: usize) -> bool {
        self.asked(j, time) == q
            && (j == last || (0..=self.planned.worst[j][q]).all(|duration| self.holds(j + 1, time + duration, q, last)))
    }

    /// Whether r actions from position i at time t can't differ from the asked manager.
    fn can_not_differ(&mut self, i: usize, t: i64, r: usize) -> bool {
        if let Some(&known) = self.steady.get(&(i, t, r)) {
            return known;
        }
        let found = self.holds(i, t, self.asked(i, t), i + r - 1);
        self.steady.insert((i, t, r), found);
        found
    }

    /// The fewest decisions from position i on, over all ways of coasting that can't differ. Clocks are those before each position.
    fn fewest(&mut self, clocks: &[i64]) -> u32 {
        let n = self.planned.n;
        let mut fewest = vec![0; n + 1];
        for i in (0..n).rev() {
            let ways = (1..=LONGEST_COAST.min(n - i)).filter(|&r| self.can_not_differ(i, clocks[i], r));
            fewest[i] = 1 + ways.map(|r| fewest[i + r]).min().expect("one action at a time is a way");
        }
        fewest[0]
    }

    /// One cycle over durations of the asked levels.
    fn cycle(&mut self, durations: &[i64], levels: &[usize]) {
        let (n, width) = (self.planned.n, self.planned.levels);
        let clocks: Vec<i64> = (0..=n).map(|i| durations[..i].iter().sum()).collect();
        // A level that was not asked for would take much longer.
        let mut table = vec![9999; n * width];
        for i in 0..n {
            table[i * width + levels[i]] = durations[i] as u32;
        }
        let decisions = self.fewest(&clocks);
        let wanted = Dried { decisions, end: clocks[n] as u32, overrun: false, late: false };
        for calls in [&Reference as &dyn Calls, &Product] {
            let (mut given, mut marks) = (vec![9; n], vec![9; n]);
            let answer = self.ran.dry(calls, &self.planned, &table, &mut given, &mut marks);
            assert_eq!(answer, Ok(wanted), "{:?} {durations:?}", self.planned);
            assert!((0..n).all(|i| given[i] as usize == levels[i]), "{:?} {durations:?}", self.planned);
            assert!((0..n).all(|i| clocks[i + 1] <= self.planned.deadline[i]), "{:?} {durations:?}", self.planned);
            assert_eq!(marks.iter().filter(|&&mark| mark == 1).count(), decisions as usize);
            self.coasts_can_not_differ(&clocks, &marks);
        }
        self.cycles += 1;
    }

    /// Each coast that was granted is itself one that can't differ.
    fn coasts_can_not_differ(&mut self, clocks: &[i64], marks: &[u8]) {
        let n = self.planned.n;
        for i in (0..n).filter(|&i| marks[i] == 1) {
            let coasted = marks[i + 1..].iter().take_while(|&&mark| mark == 0).count();
            assert!(self.can_not_differ(i, clocks[i], 1 + coasted), "{:?} {clocks:?}", self.planned);
            self.short += usize::from(self.longer_by_its_ends(i, clocks[i], 1 + coasted));
        }
    }

    /// Whether a coast at position i and time t would be longer than r, if the level above were looked for at its ends alone.
    fn longer_by_its_ends(&self, i: usize, t: i64, r: usize) -> bool {
        let (q, most) = (self.asked(i, t), LONGEST_COAST.min(self.planned.n - i));
        let bound = |r: usize| self.planned.coast_bound(&self.limits, i, q, r);
        let qualifies = |r: usize| t <= bound(r) && t > self.limits[i + r - 1][q + 1];
        q + 1 < self.planned.levels && (r + 1..=most).any(qualifies)
    }

    /// All cycles: every duration from zero to worst at the asked level, position by position.
    fn all_cycles(&mut self, durations: &mut Vec<i64>, levels: &mut Vec<usize>) {
        let i = durations.len();
        if i == self.planned.n {
            return self.cycle(durations, levels);
        }
        let q = self.asked(i, durations.iter().sum());
        levels.push(q);
        for duration in 0..=self.planned.worst[i][q] {
            durations.push(duration);
            self.all_cycles(durations, levels);
            durations.pop();
        }
        levels.pop();
    }

    /// One cycle with drawn durations.
    fn drawn_cycle(&mut self, draw: &mut Draw) {
        let (mut durations, mut levels): (Vec<i64>, Vec<usize>) = Default::default();
        for i in 0..self.planned.n {
            let q = self.asked(i, durations.iter().sum());
            levels.push(q);
            durations.push(draw.between(0, self.planned.worst[i][q] as u32).into());
        }
        self.cycle(&durations, &levels);
    }
}

/// What trials found.
#[derive(Default)]
struct Found {
    trials: usize,
    cycles: usize,
    /// The most of one trial.
    longest: usize,
    /// Coasts of two actions and more that can't differ.
    bounds: usize,
    short: usize,
    /// Trials in which a limit is below that of the position before.
    falls: usize,
}

impl Found {
    /// All cycles of a trial.
    fn add(&mut self, mut trial: Trial) {
        trial.all_cycles(&mut Vec::new(), &mut Vec::new());
        self.trials += 1;
        self.cycles += trial.cycles;
        self.longest = self.longest.max(trial.cycles);
        self.bounds += trial.steady.iter().filter(|((_, _, r), holds)| *r > 1 && **holds).count();
        self.short += trial.short;
        let fall = |pair: &[Vec<i64>]| pair[0].iter().zip(&pair[1]).any(|(before, after)| after < before);
        self.falls += usize::from(trial.limits.windows(2).any(fall));
    }

    /// By the policy of 2008 no limit falls, and the ends of a coast say all.
    fn say(&self, policy: Policy, what: &str) {
        let Found { trials, cycles, longest, bounds, short, falls } = self;
        println!(
            "{}: {trials} {what}, {cycles} cycles, up to {longest} each, {bounds} bounds of two and more; limits fall in {falls}, {short} coasts kept \
             short within",
            policy.year()
        );
        match policy {
            Policy::Mixed => assert_eq!([*short, *falls], [0, 0]),
            Policy::Apart => assert!(*short > 20 && *falls > 100),
        }
    }
}

/// Drawn profiles of up to six actions and three levels, mostly two.
#[test]
fn drawn_profiles() {
    for policy in Policy::BOTH {
        let (mut draw, mut found) = (Draw::new(5), Found::default());
        while found.trials < 6000 {
            let sketch = draw.profile(Size::Tiny);
            if let Some(trial) = Trial::new(&sketch, policy).filter(|_| sketch.worst.iter().all(|&time| time <= 4)) {
                found.add(trial);
            }
        }
        found.say(policy, "profiles");
        assert!(found.bounds > found.trials && found.longest > 3000);
    }
}

/// Bodies of few actions and short times repeated, up to seven positions in all.
#[test]
fn drawn_bodies() {
    for policy in Policy::BOTH {
        let (mut draw, mut found) = (Draw::new(6), Found::default());
        while found.trials < 4000 {
            let repeats = draw.between(2, 4);
            let image = draw.body_image(Size::Tiny, repeats);
            let Some(trial) = Trial::repeated(&image, repeats, policy, 7) else { continue };
            if trial.planned.worst.iter().flatten().all(|&time| time <= 3) {
                found.add(trial);
            }
        }
        found.say(policy, "bodies");
        assert!(found.bounds > found.trials && found.longest > 500);
    }
}

/// Two actions, two levels, all times up to 2 by the table rule, all deadlines, all cycles up to 5.
#[test]
fn all_of_two_actions() {
    let mut rows = Vec::new();
    for code in 0..81u32 {
        let [a0, w0, a1, w1] = [code % 3, code / 3 % 3, code / 9 % 3, code / 27];
        if a0 <= w0 && a1 <= w1 && a0 <= a1 && w0 <= w1 {
            rows.push(([a0, a1], [w0, w1]));
        }
    }
    let mut found = Policy::BOTH.map(|_| Found::default());
    for (one, other) in rows.iter().flat_map(|one| rows.iter().map(move |other| (one, other))) {
        for cycle in 1..=5 {
            for deadlines in (0..=cycle).flat_map(|first| (0..=cycle).map(move |second| vec![first, second])) {
                for masks in [vec![0, 0], vec![0, 1], vec![2, 0]] {
                    let sketch = Sketch {
                        n: 2,
                        levels: 2,
                        cycle,
                        masks,
                        deadlines: deadlines.clone(),
                        averages: [one.0, other.0].concat(),
                        worst: [one.1, other.1].concat(),
                        ..Sketch::default()
                    };
                    for (policy, found) in Policy::BOTH.into_iter().zip(&mut found) {
                        Trial::new(&sketch, policy).into_iter().for_each(|trial| found.add(trial));
                    }
                }
            }
        }
    }
    for (policy, found) in Policy::BOTH.into_iter().zip(&found) {
        println!("{}: {} profiles, {} cycles", policy.year(), found.trials, found.cycles);
        assert!(found.trials > 10_000);
    }
}

/// Chains longer than the longest coast, times 0 and 1, drawn durations: no coast is longer than 16.
#[test]
fn long_chains() {
    let mut draw = Draw::new(16);
    let mut full = [0; 2];
    for _ in 0..60 {
        let n = draw.between(17, 22) as usize;
        let mut sketch = Sketch {
            n: n as u32,
            levels: 2,
            masks: (0..n).map(|a| if a == 0 { 0 } else { 1 << (a - 1) }).collect(),
            deadlines: vec![0; n],
            averages: vec![0; 2 * n],
            worst: vec![0; 2 * n],
            ..Sketch::default()
        };
        for _ in 0..draw.between(0, 5) {
            let a = draw.index(n);
            let top = draw.between(0, 1);
            (sketch.worst[2 * a], sketch.worst[2 * a + 1], sketch.averages[2 * a + 1]) = (draw.between(0, 1), 1, top);
        }
        sketch.cycle = draw.between(1, 7);
        for (policy, full) in Policy::BOTH.into_iter().zip(&mut full) {
            let Some(mut trial) = Trial::new(&sketch, policy) else { continue };
            for _ in 0..20 {
                trial.drawn_cycle(&mut draw);
            }
            *full += trial.steady.iter().filter(|((_, _, r), holds)| *r == LONGEST_COAST && **holds).count();
        }
    }
    println!("{full:?} bounds of sixteen");
    assert!(full.iter().all(|&full| full > 20));
}
