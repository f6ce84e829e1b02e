//! Times each public call of the product against the fast forms in Rust and in C: the same machine, input and run, the same lent slices.
//! Prints the tables of docs/BENCHMARKS.md; with the word `bodies`, those of a body repeated alone.

#[path = "bench/bodies.rs"]
mod bodies;

use nyokazerubi_host::c::C;
use nyokazerubi_host::calls::{
    Calls, Counts, Fast, Opened, Run, Tables, Totals, LONGEST_COAST, MOST_FRAMES, POLICY_2005, POLICY_2008,
};
use nyokazerubi_host::draw::{big_endian, Draw, Sketch};
use nyokazerubi_host::product::Product;
use std::hint::black_box;
use std::time::Instant;

/// Samples of each call and implementation.
const SAMPLES: usize = 401;
/// The time that one sample takes at least, in nanoseconds.
const SAMPLE: u128 = 100_000;
/// The cycle of the encoder's frame.
const FRAME: f64 = 320_000.0;

fn main() {
    let folder = std::env::temp_dir();
    let library = format!("nyokazerubi-fast-{}.so", std::process::id());
    let c = C::build(&folder, &library, &["-O3"]).expect("c/fast.c builds");
    std::fs::remove_file(folder.join(&library)).expect("the library was built here");
    let sides: Sides = [("product", &Product), ("Rust", &Fast), ("C", &c)];
    println!("Medians of {SAMPLES} samples in ns; the ratio is to the faster of Rust and C.");
    let images = [("encoder", encoder()), ("chain", chain()), ("graph", graph())];
    if std::env::args().nth(1).as_deref() != Some("bodies") {
        for (name, image) in &images {
            table(&sides, name, image, &CALLS.map(|(call, _)| call));
        }
        for (name, image) in
            [("full graph, numbers against the order", full()), ("chain, numbers against the order", backward())]
        {
            table(&sides, name, &image, &ORDERED);
        }
        frame(&sides);
        recordings(&sides, &images[1..]);
    }
    for (name, image) in &images {
        bodies::table(&sides, name, image);
    }
    bodies::frame(&sides, &encoder());
    bodies::memory();
}

/// The implementations by name.
type Sides<'a> = [(&'static str, &'a dyn Calls); 3];

/// The figures of one image, planned by 2008; of the calls that plan and decide, those by 2005 beside them.
fn table(sides: &Sides, name: &str, image: &[u8], calls: &[&str]) {
    let [bench, apart] = [POLICY_2008, POLICY_2005].map(|policy| Bench::new(image, policy));
    let Counts { n, levels, .. } = bench.counts;
    println!(
        "\n### {name}: n = {n}, L = {levels}, {} bytes, {} decisions in the cycle, by 2005 {}\n",
        bench.image.len(),
        bench.decisions,
        apart.decisions
    );
    println!("| call | product | Rust | C | ratio |\n|---|---|---|---|---|");
    for (call, run) in CALLS.into_iter().filter(|(call, _)| calls.contains(call)) {
        let by = if call.ends_with("an action") { n as f64 } else { 1.0 };
        let row = |words: &str, bench: &Bench| {
            let [product, rust, c] = measure(sides, |calls| run(bench, calls)).map(|median| median / by);
            println!("| {call}{words} | {product:.1} | {rust:.1} | {c:.1} | {:.2} |", product / rust.min(c));
        };
        row("", &bench);
        if BY_POLICY.contains(&call) {
            row(", 2005", &apart);
        }
    }
}

/// The processor's clock in GHz, by additions that wait for each other and take one cycle each: the best of many short samples.
fn clock() -> f64 {
    const STEPS: u32 = 100_000;
    let sample = || {
        let began = Instant::now();
        let mut sum = 1;
        for _ in 0..STEPS / 10 {
            for _ in 0..10 {
                sum = step(sum);
            }
        }
        black_box(sum);
        f64::from(STEPS) / began.elapsed().as_nanos() as f64
    };
    (0..1000).map(|_| sample()).fold(0.0, f64::max)
}

/// An addition that takes one cycle: of two registers, since some processors add a constant without waiting.
#[inline(always)]
fn step(value: u64) -> u64 {
    let mut value = value;
    #[cfg(target_arch = "aarch64")]
    unsafe {
        std::arch::asm!("add {0}, {0}, {1}", inout(reg) value, in(reg) 1u64, options(pure, nomem, nostack));
    }
    #[cfg(target_arch = "x86_64")]
    unsafe {
        std::arch::asm!("add {0}, {1}", inout(reg) value, in(reg) 1u64, options(pure, nomem, nostack));
    }
    value
}

/// The medians by side, the samples of the sides taken in turns.
fn measure(sides: &Sides, mut call: impl FnMut(&dyn Calls)) -> [f64; 3] {
    let mut repeats = 1u32;
    loop {
        let began = Instant::now();
        (0..repeats).for_each(|_| call(sides[1].1));
        if began.elapsed().as_nanos() >= SAMPLE {
            break;
        }
        repeats *= 2;
    }
    let mut samples: [Vec<f64>; 3] = Default::default();
    for _ in 0..SAMPLES {
        for (side, samples) in sides.iter().zip(&mut samples) {
            let began = Instant::now();
            (0..repeats).for_each(|_| call(side.1));
            samples.push(began.elapsed().as_nanos() as f64 / f64::from(repeats));
        }
    }
    samples.map(|mut samples| {
        samples.sort_by(f64::total_cmp);
        samples[samples.len() / 2]
    })
}

/// What the calls are timed on: an image, its tables, and slices to lend.
struct Bench {
    image: Vec<u8>,
    policy: u32,
    counts: Counts,
    masks: Vec<u64>,
    deadlines: Vec<u32>,
    averages: Vec<u32>,
    worst: Vec<u32>,
    order: Vec<u8>,
    limits: Vec<i32>,
    by_position: Vec<u32>,
    bounds: Vec<i32>,
    durations: Vec<u32>,
    /// The durations as a frame of a recording.
    frame: Vec<u8>,
    /// A few records and many.
    traces: [Vec<u8>; 2],
    /// The clock at the end of each action of a cycle over the durations, and its decisions.
    clocks: Vec<u32>,
    decisions: u32,
}

impl Bench {
    fn new(image: &[u8], policy: u32) -> Bench {
        let counts = Product.check(image).expect("accepted");
        let (n, cells) = (counts.n, (counts.n * counts.levels));
        let mut bench = Bench {
            image: image.to_vec(),
            policy,
            counts,
            masks: vec![0; n],
            deadlines: vec![0; n],
            averages: vec![0; cells],
            worst: vec![0; cells],
            order: vec![0; n],
            limits: vec![0; cells],
            by_position: vec![0; cells],
            bounds: vec![0; cells * LONGEST_COAST],
            durations: Vec::new(),
            frame: Vec::new(),
            traces: Default::default(),
            clocks: Vec::new(),
            decisions: 0,
        };
        let (masks, deadlines) = (&mut bench.masks, &mut bench.deadlines);
        Fast.read(image, masks, deadlines, &mut bench.averages, &mut bench.worst).expect("accepted");
        let (order, limits) = (&mut bench.order, &mut bench.limits);
        Fast.plan(image, policy, order, limits, &mut bench.by_position, &mut bench.bounds).expect("accepted");
        let mut draw = Draw::new(8);
        bench.durations = bench.drawn(&mut draw);
        bench.frame = big_endian(&bench.durations);
        bench.traces = [100, 4000].map(|records| bench.trace(&mut draw, records));
        bench.cycle();
        bench
    }

    /// Durations mostly near the average, now and then up to the worst time.
    fn drawn(&self, draw: &mut Draw) -> Vec<u32> {
        let duration = |cell: usize| {
            let (action, level) = (self.order[cell / 8] as usize, cell % 8);
            let average = self.averages[action * 8 + level];
            let worst = self.by_position[cell];
            if draw.once_in(8) {
                draw.between(0, worst)
            } else {
                (average / 2 + draw.between(0, average)).min(worst)
            }
        };
        (0..self.by_position.len()).map(duration).collect()
    }

    fn trace(&self, draw: &mut Draw, records: usize) -> Vec<u8> {
        let record = |_| {
            let (action, level) = (draw.index(self.counts.n), draw.index(self.counts.levels));
            let longest = self.worst[action * self.counts.levels + level];
            let open = u64::from(!draw.once_in(4));
            let duration = if draw.once_in(8) { 0 } else { draw.between(0, longest) };
            let bits = open << 39 | (action as u64) << 33 | (level as u64) << 30 | u64::from(duration);
            bits.to_be_bytes()[3..].to_vec()
        };
        (0..records).flat_map(record).collect()
    }

    fn tables(&self) -> Tables<'_> {
        Tables { limits: &self.limits, worst_by_position: &self.by_position, bounds: &self.bounds }
    }

    /// Where a cycle over the durations gets to.
    fn cycle(&mut self) {
        let Counts { n, levels, .. } = self.counts;
        let (mut given, mut decided) = (vec![0; n], vec![0; n]);
        let answer = Fast.dry_run(n, levels, self.tables(), &self.durations, &mut given, &mut decided);
        self.decisions = answer.expect("a cycle").decisions;
        let mut clock = 0;
        for (&level, row) in given.iter().zip(self.durations.chunks(levels)) {
            clock += row[level as usize];
            self.clocks.push(clock);
        }
    }
}

/// A call by its name.
type Call = (&'static str, fn(&Bench, &dyn Calls));

/// Room to write to, the same for every side.
struct Room {
    image: [u8; 3846],
    small: [[u8; 64]; 2],
    words: [u64; 64],
    numbers: [[u32; 512]; 3],
    limits: [i32; 512],
    bounds: [i32; 8192],
    summaries: [u32; 2048],
}

static mut ROOM: Room = Room {
    image: [0; 3846],
    small: [[0; 64]; 2],
    words: [0; 64],
    numbers: [[0; 512]; 3],
    limits: [0; 512],
    bounds: [0; 8192],
    summaries: [0; 2048],
};

/// The one room. There is one thread, and each call is over before the next.
fn room() -> &'static mut Room {
    unsafe { &mut *std::ptr::addr_of_mut!(ROOM) }
}

/// Those that are timed where the numbers run against the order.
const ORDERED: [&str; 3] = ["check", "write", "plan"];

/// Those that a policy is told, and those that read its tables.
const BY_POLICY: [&str; 3] = ["plan", "ask + report, an action", "dry frame"];

const CALLS: [Call; 13] = [
    ("check", |bench, calls| {
        black_box(calls.check(black_box(&bench.image)).is_ok());
    }),
    ("read", |bench, calls| {
        let Room { words, numbers: [deadlines, averages, worst], .. } = room();
        black_box(calls.read(black_box(&bench.image), words, deadlines, averages, worst).is_ok());
    }),
    ("write", |bench, calls| {
        let tables = black_box((&bench.masks, &bench.deadlines, &bench.averages, &bench.worst));
        black_box(calls.write(bench.counts, tables.0, tables.1, tables.2, tables.3, &mut room().image).is_ok());
    }),
    ("lookup", |bench, calls| {
        black_box(calls.lookup_refusal(black_box(&bench.image), bench.counts.n - 1).is_ok());
    }),
    ("plan", |bench, calls| {
        let Room { small: [order, _], limits, numbers: [worst, ..], bounds, .. } = room();
        black_box(calls.plan(black_box(&bench.image), bench.policy, order, limits, worst, bounds).is_ok());
    }),
    ("ask + report, an action", |bench, calls| cycle(bench, calls)),
    ("dry run", |bench, calls| {
        let Room { small: [given, decided], .. } = room();
        let Counts { n, levels, .. } = bench.counts;
        black_box(calls.dry_run(n, levels, black_box(bench.tables()), &bench.durations, given, decided).is_ok());
    }),
    ("dry frame", |bench, calls| {
        let Room { small: [given, decided], image: order, .. } = room();
        let (image, policy) = (black_box(&bench.image), bench.policy);
        black_box(calls.dry_frame(image, policy, &bench.durations, order, given, decided).is_ok());
    }),
    ("open recording", |bench, calls| {
        let Room { small: [order, _], limits, numbers: [worst, ..], bounds, .. } = room();
        let bytes = black_box(MOST_FRAMES * bench.frame.len());
        let (image, policy) = (black_box(&bench.image), bench.policy);
        black_box(calls.open_recording(image, policy, bytes, order, limits, worst, bounds).is_ok());
    }),
    ("rehearse", |bench, calls| {
        let Counts { n, levels, .. } = bench.counts;
        let mut totals = Totals::default();
        black_box(calls.rehearse(&mut totals, n, levels, black_box(bench.tables()), &bench.frame).is_ok());
        black_box(totals);
    }),
    ("reading", |bench, calls| {
        let Counts { n, levels, .. } = bench.counts;
        black_box(calls.speed_reading(black_box(&bench.image), 0, n - 1, levels / 2, 1000));
    }),
    ("refresh, 100 records", |bench, calls| {
        black_box(calls.refresh(black_box(&bench.image), &bench.traces[0], &mut room().image).is_ok());
    }),
    ("refresh, 4000 records", |bench, calls| {
        black_box(calls.refresh(black_box(&bench.image), &bench.traces[1], &mut room().image).is_ok());
    }),
];

/// A whole cycle by turns over the lent record.
fn cycle(bench: &Bench, calls: &dyn Calls) {
    let mut run = Run::default();
    calls.start_lent(&mut run, bench.counts.n, bench.counts.levels);
    for &clock in &bench.clocks {
        black_box(calls.ask_lent(&mut run, &bench.order, &bench.limits, &bench.bounds).is_ok());
        black_box(calls.report_lent(&mut run, clock, &bench.by_position));
    }
    black_box(run);
}

/// The manager's cost for a whole frame of the encoder: start, nine times ask and report.
fn frame(sides: &Sides) {
    let clock = clock();
    let bench = Bench::new(&encoder(), POLICY_2008);
    let medians = measure(sides, |calls| cycle(&bench, calls));
    println!("\n### The manager in a frame of the encoder, {FRAME} cycles, at {clock:.2} GHz\n");
    println!("| side | ns | cycles | part of the frame |\n|---|---|---|---|");
    for ((name, _), ns) in sides.iter().zip(medians) {
        let cycles = ns * clock;
        println!("| {name} | {ns:.1} | {cycles:.0} | {:.3} % |", 100.0 * cycles / FRAME);
    }
}

/// The most frames that a recording may have, opened and run one after another.
fn recordings(sides: &Sides, images: &[(&str, Vec<u8>)]) {
    println!("\n### A recording of {MOST_FRAMES} frames, n = 64, L = 8, in ms\n");
    println!("| frames of | decisions | product | Rust | C | ratio |\n|---|---|---|---|---|---|");
    for (name, image) in images {
        let bench = Bench::new(image, POLICY_2008);
        let mut draw = Draw::new(4096);
        let recording: Vec<u8> = (0..MOST_FRAMES).flat_map(|_| big_endian(&bench.drawn(&mut draw))).collect();
        let Totals { frames, decisions, .. } = rehearse(&bench, &Product, &recording);
        assert_eq!(frames as usize, MOST_FRAMES, "frames run");
        let medians = measure(sides, |calls| {
            black_box(rehearse(&bench, calls, &recording));
        });
        let [product, rust, c] = medians.map(|ns| ns / 1e6);
        println!("| {name} | {decisions} | {product:.3} | {rust:.3} | {c:.3} | {:.2} |", product / rust.min(c));
    }
}

/// A whole recording, a frame at a time.
fn rehearse(bench: &Bench, calls: &dyn Calls, recording: &[u8]) -> Totals {
    let Room { small: [order, _], limits, numbers: [worst, ..], bounds, .. } = room();
    let opened = calls.open_recording(&bench.image, bench.policy, recording.len(), order, limits, worst, bounds);
    let Opened { n, levels, frame_bytes, .. } = opened.expect("accepted");
    let tables = Tables { limits, worst_by_position: worst, bounds };
    let mut totals = Totals::default();
    for frame in recording.chunks_exact(frame_bytes) {
        black_box(calls.rehearse(&mut totals, n, levels, tables, frame).is_ok());
    }
    totals
}

/// The rules' encoder.
fn encoder() -> Vec<u8> {
    let mut image = vec![0; 546];
    assert_eq!(Product.write_encoder(&mut image), Ok(546));
    image
}

/// 64 actions of 8 levels whose times rise by drawn steps, and room in the cycle for some of the levels.
fn times() -> Sketch {
    let mut draw = Draw::new(64);
    let mut sketch = Sketch { n: 64, levels: 8, ..Sketch::default() };
    for _ in 0..64 {
        let (mut average, mut worst) = (0, 0);
        for _ in 0..8 {
            average += draw.between(0, 2000);
            worst = worst.max(average) + draw.between(0, 4000);
            sketch.averages.push(average);
            sketch.worst.push(worst);
        }
    }
    sketch.cycle = 6 * sketch.worst.iter().step_by(8).sum::<u32>();
    sketch
}

/// A chain, as the encoder is one.
fn chain() -> Vec<u8> {
    let masks = (0..64).map(|a| if a == 0 { 0 } else { 1 << (a - 1) }).collect();
    Sketch { masks, deadlines: vec![0; 64], ..times() }.image()
}

/// A graph whose numbers say nothing: each action after one in eight of those before it, all deadlines different.
fn graph() -> Vec<u8> {
    let mut draw = Draw::new(65);
    let mut sketch = times();
    let mut line: Vec<usize> = (0..64).collect();
    for last in (1..64).rev() {
        line.swap(last, draw.index(last + 1));
    }
    sketch.masks = vec![0; 64];
    for (place, &a) in line.iter().enumerate() {
        for &b in &line[..place] {
            if draw.once_in(8) {
                sketch.masks[a] |= 1 << b;
            }
        }
    }
    drawn_deadlines(sketch, &mut draw)
}

/// Each action after all that have a higher number.
fn full() -> Vec<u8> {
    drawn_deadlines(Sketch { masks: (0..64).map(|a| u64::MAX << a << 1).collect(), ..times() }, &mut Draw::new(66))
}

/// Each action after the one that has the next number.
fn backward() -> Vec<u8> {
    drawn_deadlines(Sketch { masks: (0..64).map(|a| 1 << a << 1).collect(), ..times() }, &mut Draw::new(66))
}

/// All deadlines different, and every order meets them at level 0.
fn drawn_deadlines(mut sketch: Sketch, draw: &mut Draw) -> Vec<u8> {
    let least = sketch.cycle / 6;
    sketch.deadlines = (0..64).map(|_| draw.between(least, sketch.cycle)).collect();
    sketch.image()
}
