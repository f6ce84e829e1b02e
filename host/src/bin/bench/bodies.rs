//! A body repeated: its calls beside the plain ones on the same image, the manager in a frame of the encoder's body, and what is stored.

use super::{clock, measure, room, Bench, Room, Sides, FRAME};
use nyokazerubi_host::calls::{
    Body, BodyRun, BodyTables, Calls, Counts, Fast, Run, LAST_CLOCK, LONGEST_COAST, MOST_REPEATS, POLICY_2005,
    POLICY_2008, SUMMARY_NUMBERS,
};
use nyokazerubi_host::draw::Draw;
use std::hint::black_box;

/// The records of each kind of turn that are timed.
const TURNS: usize = 64;

/// An image whose cycle is what so many repeats need.
pub fn repeated(image: &[u8], repeats: u32) -> Vec<u8> {
    let (mut masks, mut deadlines) = ([0; 64], [0; 64]);
    let (mut averages, mut worst) = ([0; 512], [0; 512]);
    let counts = Fast.read(image, &mut masks, &mut deadlines, &mut averages, &mut worst).expect("accepted");
    let cycle = (u64::from(counts.cycle) * u64::from(repeats)).min(LAST_CLOCK.into()) as u32;
    let mut again = vec![0; image.len()];
    // All deadlines are the cycle's.
    let written = Fast.write(Counts { cycle, ..counts }, &masks, &[0; 64], &averages, &worst, &mut again);
    assert_eq!(written, Ok(image.len()));
    again
}

/// The records of a cycle before each call, by kind: an asking that decides, one that coasts, a report with its clock.
struct Turns<R> {
    deciding: Vec<R>,
    coasting: Vec<R>,
    reports: Vec<(R, u32)>,
}

/// Some of all, evenly; of few each several times.
fn some<T: Copy>(all: &[T]) -> Vec<T> {
    (0..TURNS).filter_map(|at| all.get(at * all.len() / TURNS)).copied().collect()
}

impl<R: Copy> Turns<R> {
    fn some(self) -> Turns<R> {
        Turns { deciding: some(&self.deciding), coasting: some(&self.coasting), reports: some(&self.reports) }
    }
}

/// A body to be repeated so often, with a cycle over durations drawn as those of the plain one.
struct Repeated {
    plain: Bench,
    body: Body,
    order: Vec<u8>,
    summaries: Vec<u32>,
    worst: Vec<u32>,
    durations: Vec<u32>,
    /// The clock at the end of each action.
    clocks: Vec<u32>,
    decisions: u32,
}

impl Repeated {
    fn new(image: &[u8], repeats: u32, policy: u32) -> Repeated {
        let plain = Bench::new(&repeated(image, repeats), policy);
        let Counts { n, levels, .. } = plain.counts;
        let (mut order, mut summaries) = (vec![0; n], vec![0; n * levels * SUMMARY_NUMBERS]);
        let mut worst = vec![0; n * levels];
        let planned = Fast.plan_body(&plain.image, repeats, policy, &mut order, &mut summaries, &mut worst);
        let body = planned.expect("accepted");
        let mut draw = Draw::new(1620);
        let durations: Vec<u32> = (0..repeats).flat_map(|_| plain.drawn(&mut draw)).collect();
        let positions = n * repeats as usize;
        let (mut given, mut marks) = (vec![0; positions], vec![0; positions]);
        let answer = Fast.body_dry_frame(&plain.image, repeats, policy, &durations, &mut order, &mut given, &mut marks);
        let answer = answer.expect("a cycle");
        assert!(!answer.overrun && !answer.late, "durations are within worst");
        let mut end = 0;
        let mut ends = |(row, &level): (&[u32], &u8)| {
            end += row[level as usize];
            end
        };
        let clocks = durations.chunks(levels).zip(&given).map(&mut ends).collect();
        Repeated { plain, body, order, summaries, worst, durations, clocks, decisions: answer.decisions }
    }

    fn tables(&self) -> BodyTables<'_> {
        BodyTables { order: &self.order, summaries: &self.summaries, worst_by_position: &self.worst }
    }

    /// A whole cycle by turns.
    fn cycle(&self, calls: &dyn Calls) -> BodyRun {
        let mut run = BodyRun::default();
        let tables = self.tables();
        calls.body_start(&mut run, self.body);
        for &clock in &self.clocks {
            black_box(calls.body_ask(&mut run, &tables).is_ok());
            black_box(calls.body_report(&mut run, clock, &self.worst));
        }
        run
    }

    fn turns(&self) -> Turns<BodyRun> {
        let mut turns = Turns { deciding: Vec::new(), coasting: Vec::new(), reports: Vec::new() };
        let mut run = BodyRun::default();
        let tables = self.tables();
        Fast.body_start(&mut run, self.body);
        for &clock in &self.clocks {
            let before = run;
            let given = Fast.body_ask(&mut run, &tables).expect("a turn");
            (if given.decided { &mut turns.deciding } else { &mut turns.coasting }).push(before);
            turns.reports.push((run, clock));
            Fast.body_report(&mut run, clock, &self.worst);
        }
        turns.some()
    }
}

/// The turns of the plain cycle.
fn plain_turns(bench: &Bench) -> Turns<Run> {
    let mut turns = Turns { deciding: Vec::new(), coasting: Vec::new(), reports: Vec::new() };
    let (mut run, _) = Fast.start(bench.counts.n, bench.counts.levels);
    for &clock in &bench.clocks {
        let before = run;
        let given = Fast.ask_lent(&mut run, &bench.order, &bench.limits, &bench.bounds).expect("a turn");
        (if given.decided { &mut turns.deciding } else { &mut turns.coasting }).push(before);
        turns.reports.push((run, clock));
        Fast.report_lent(&mut run, clock, &bench.by_position);
    }
    turns.some()
}

/// The figures of a call over records, each from its own.
fn over<T: Copy>(sides: &Sides, records: &[T], mut call: impl FnMut(&dyn Calls, T)) -> [f64; 3] {
    measure(sides, |calls| records.iter().for_each(|&record| call(calls, record))).map(|ns| ns / records.len() as f64)
}

/// The same on lent records. All of them are laid out before the first call, since a camera's record lies where it is: one that is copied just before a
/// call may be read across what the copy stored in parts, and then the call waits for the copy.
fn over_lent<T: Copy>(sides: &Sides, records: &[T], mut call: impl FnMut(&dyn Calls, &mut T)) -> [f64; 3] {
    let mut lent = records.to_vec();
    let each = |calls: &dyn Calls| {
        lent.copy_from_slice(black_box(records));
        lent.iter_mut().for_each(|record| call(calls, record));
    };
    measure(sides, each).map(|ns| ns / records.len() as f64)
}

/// The figures of the plain calls: planning, the dry run from an image, an asking that decides, one that coasts, a report.
fn plain(sides: &Sides, bench: &Bench) -> [[f64; 3]; 5] {
    let turns = plain_turns(bench);
    let ask = |calls: &dyn Calls, run: &mut Run| {
        black_box(calls.ask_lent(run, &bench.order, &bench.limits, &bench.bounds).is_ok());
    };
    [
        measure(sides, |calls| {
            let Room { small: [order, _], limits, numbers: [worst, ..], bounds, .. } = room();
            black_box(calls.plan(black_box(&bench.image), bench.policy, order, limits, worst, bounds).is_ok());
        }),
        measure(sides, |calls| {
            let Room { small: [given, decided], image: order, .. } = room();
            let (image, policy) = (black_box(&bench.image), bench.policy);
            black_box(calls.dry_frame(image, policy, &bench.durations, order, given, decided).is_ok());
        }),
        over_lent(sides, &turns.deciding, ask),
        over_lent(sides, &turns.coasting, ask),
        over_lent(sides, &turns.reports, |calls, (run, clock)| {
            black_box(calls.report_lent(run, *clock, &bench.by_position));
        }),
    ]
}

/// The same of a body repeated; the dry run of one repeat alone is as long as the plain one.
fn of_body(sides: &Sides, bench: &Repeated) -> [[f64; 3]; 5] {
    let turns = bench.turns();
    let Body { repeats, policy, .. } = bench.body;
    let tables = bench.tables();
    let ask = |calls: &dyn Calls, run: &mut BodyRun| {
        black_box(calls.body_ask(run, &tables).is_ok());
    };
    let (mut given, mut marks) = (vec![0; bench.clocks.len()], vec![0; bench.clocks.len()]);
    [
        measure(sides, |calls| {
            let Room { small: [order, _], numbers: [worst, ..], summaries, .. } = room();
            black_box(calls.plan_body(black_box(&bench.plain.image), repeats, policy, order, summaries, worst).is_ok());
        }),
        measure(sides, |calls| {
            let Room { image: order, .. } = room();
            let image = black_box(&bench.plain.image);
            let answer = calls.body_dry_frame(image, repeats, policy, &bench.durations, order, &mut given, &mut marks);
            black_box(answer.is_ok());
        }),
        over_lent(sides, &turns.deciding, ask),
        over_lent(sides, &turns.coasting, ask),
        over_lent(sides, &turns.reports, |calls, (run, clock)| {
            black_box(calls.body_report(run, *clock, &bench.worst));
        }),
    ]
}

/// Limits, and coast bounds of sixteen, at positions all over the cycle and every level.
fn readings(sides: &Sides, bench: &Repeated) -> [[f64; 3]; 2] {
    let positions = bench.clocks.len();
    let far = positions.saturating_sub(LONGEST_COAST).max(1);
    let places: Vec<(usize, usize)> =
        (0..TURNS).map(|at| (at * far / TURNS, at % bench.body.levels as usize)).collect();
    [
        over(sides, &places, |calls, (position, level)| {
            black_box(calls.body_limit(bench.body, &bench.summaries, black_box(position), level).is_ok());
        }),
        over(sides, &places, |calls, (position, level)| {
            let length = LONGEST_COAST.min(positions - position);
            let bound =
                calls.body_bound(bench.body, &bench.summaries, &bench.worst, position, level, black_box(length));
            black_box(bound.is_ok());
        }),
    ]
}

const CALLS: [&str; 5] = ["plan", "dry frame", "ask that decides", "ask that coasts", "report"];

fn row(call: &str, figures: [f64; 3], plain: Option<[f64; 3]>) {
    let [product, rust, c] = figures;
    let to_plain = plain.map_or(String::new(), |plain| {
        format!("{:.2}, {:.2}, {:.2}", product / plain[0], rust / plain[1], c / plain[2])
    });
    println!("| {call} | {product:.1} | {rust:.1} | {c:.1} | {:.2} | {to_plain} |", product / rust.min(c));
}

/// The figures of one image by 2008; by 2005 those of planning, of an asking that decides, of limits and of bounds, which a policy is told.
pub fn table(sides: &Sides, name: &str, image: &[u8]) {
    for repeats in [1, 180, MOST_REPEATS] {
        let [bench, apart] = [POLICY_2008, POLICY_2005].map(|policy| Repeated::new(image, repeats, policy));
        let Body { n, levels, cycle, .. } = bench.body;
        println!(
            "\n### {name} repeated: n = {n}, L = {levels}, N = {repeats}, cycle {cycle}, {} decisions in the cycle, by 2005 {}\n",
            bench.decisions, apart.decisions
        );
        println!("| call | product | Rust | C | ratio | to plain, each side |\n|---|---|---|---|---|---|");
        rows(sides, &bench, "", &CALLS);
        rows(sides, &apart, ", 2005", &[CALLS[0], CALLS[2]]);
    }
}

/// The rows of some calls of a body, the plain ones before them; with words after each.
fn rows(sides: &Sides, bench: &Repeated, words: &str, calls: &[&str]) {
    let shown = |call: &str| calls.contains(&call);
    let plain = plain(sides, &bench.plain);
    for (call, figures) in CALLS.iter().zip(plain).filter(|(call, _)| shown(call)) {
        row(&format!("plain {call}{words}"), figures, None);
    }
    for ((call, figures), plain) in CALLS.iter().zip(of_body(sides, bench)).zip(plain) {
        if shown(call) {
            // The dry runs of more than one repeat are longer.
            let beside = (*call != "dry frame" || bench.body.repeats == 1).then_some(plain);
            row(&format!("body {call}{words}"), figures, beside);
        }
    }
    let [limit, bound] = readings(sides, bench);
    row(&format!("body limit{words}"), limit, None);
    row(&format!("body bound{words}"), bound, None);
}

/// The manager's cost for a whole frame of the encoder's body, the most repeats that there may be, by each policy.
pub fn frame(sides: &Sides, encoder: &[u8]) {
    let clock = clock();
    let (actions, whole) = (9 * MOST_REPEATS, FRAME * f64::from(MOST_REPEATS));
    println!(
        "\n### The manager in a frame of {MOST_REPEATS} encoder bodies, {whole} cycles, {actions} actions, at {clock:.2} GHz\n"
    );
    println!("| policy | decisions | side | ns | cycles | cycles an action | part of the frame |\n|---|---|---|---|---|---|---|");
    for policy in [POLICY_2008, POLICY_2005] {
        let bench = Repeated::new(encoder, MOST_REPEATS, policy);
        for (name, calls) in sides {
            let run = bench.cycle(*calls);
            assert_eq!((run.position, run.decisions), (actions, bench.decisions), "{name}");
        }
        let medians = measure(sides, |calls| {
            black_box(bench.cycle(calls));
        });
        for ((name, _), ns) in sides.iter().zip(medians) {
            let (cycles, decisions) = (ns * clock, bench.decisions);
            let (each, part) = (cycles / f64::from(actions), 100.0 * cycles / whole);
            println!("| {policy} | {decisions} | {name} | {ns:.0} | {cycles:.0} | {each:.1} | {part:.3} % |");
        }
    }
}

/// What is stored to manage a frame, beside tables of the plain kind over all positions: actions of four bytes, limits and coast bounds of eight.
pub fn memory() {
    println!("\n### Memory of the tables, in bytes\n");
    println!("| body | a body repeated | unrolled, N = 180 | unrolled, N = {MOST_REPEATS} |\n|---|---|---|---|");
    for (name, n, levels) in [("encoder", 9, 8), ("64 by 8", 64, 8)] {
        let cells = n * levels;
        let ours = n + 4 * SUMMARY_NUMBERS * cells + 4 * cells;
        let unrolled = |repeats: usize| repeats * (4 * n + (8 + 4 + 8 * LONGEST_COAST) * cells);
        println!("| {name} | {ours} | {} | {} |", unrolled(180), unrolled(MOST_REPEATS as usize));
    }
}
