//! What several tests need.

#![allow(dead_code)]

use nyokazerubi_host::c::C;
use nyokazerubi_host::calls::{
    Answer, Calls, Counts, Fast, Reference, Refused, Tables, NO_ACTION, POLICY_2005, POLICY_2008,
};
use nyokazerubi_host::draw::Sketch;
use nyokazerubi_host::product::Product;
use nyokazerubi_host::reference::Profile;
use nyokazerubi_host::text::BodyPlan;
use std::path::{Path, PathBuf};

/// The years of the policies.
pub const POLICIES: [u32; 2] = [POLICY_2008, POLICY_2005];

/// The folder of the outside vectors that a crate runs under the gate (`test_cases`, `test_faults`, `test_policies`, `test_recordings`,
/// `test_repeats`, `test_traces` or `test_readings`): NYOKAZERUBI_VECTORS, or the data of that crate.
pub fn vectors(kind: &str) -> PathBuf {
    let data = || Path::new(env!("CARGO_MANIFEST_DIR")).join("../crates").join(kind).join("data");
    let folder = std::env::var_os("NYOKAZERUBI_VECTORS").map_or_else(data, PathBuf::from);
    assert!(folder.is_dir(), "no vectors in {}: set NYOKAZERUBI_VECTORS to their folder", folder.display());
    folder
}

/// The vectors of a request that lie by themselves: the data of its crate, or in NYOKAZERUBI_VECTORS the folder with the request's name, if there.
pub fn vectors_of_request(kind: &str, request: &str) -> Option<PathBuf> {
    let folder = vectors(kind);
    if std::env::var_os("NYOKAZERUBI_VECTORS").is_none() {
        return Some(folder);
    }
    Some(folder.join(request)).filter(|folder| folder.is_dir())
}

/// The number of a refusal that no action is at fault for, 0 where there is none.
pub fn number<T>(answer: Answer<T>) -> u8 {
    let Err(Refused { number, action }) = answer else { return 0 };
    assert_eq!(u32::from(action), NO_ACTION, "the action of {number}");
    number
}

/// All implementations, the definitions first. Another one is added here.
pub fn sides() -> [(&'static str, Box<dyn Calls>); 4] {
    [("reference", Box::new(Reference)), ("product", Box::new(Product)), ("fast", Box::new(Fast)), ("c", Box::new(c()))]
}

/// The calls in C, built for speed.
pub fn c() -> C {
    built("fast", &["-O3"])
}

/// The calls in C, built so that undefined behaviour stops the test.
pub fn c_trapping() -> C {
    built("trapping", &["-O1", "-fsanitize=undefined", "-fsanitize-undefined-trap-on-error"])
}

fn built(name: &str, options: &[&str]) -> C {
    // Tests run side by side: each builds its own, which stays open when its file is gone.
    let name = format!("{name}-{}-{:?}.so", std::process::id(), std::thread::current().id());
    let folder = Path::new(env!("CARGO_TARGET_TMPDIR"));
    let c = C::build(folder, &name, options).expect("c/fast.c builds");
    std::fs::remove_file(folder.join(&name)).expect("the library was built here");
    c
}

/// The planned tables of an accepted image.
pub struct Plan {
    pub counts: Counts,
    pub order: Vec<u8>,
    pub limits: Vec<i32>,
    pub worst: Vec<u32>,
    pub bounds: Vec<i32>,
}

impl Plan {
    /// What a dry run or a rehearsal reads of them.
    pub fn tables(&self) -> Tables<'_> {
        Tables { limits: &self.limits, worst_by_position: &self.worst, bounds: &self.bounds }
    }
}

pub fn plan(calls: &dyn Calls, image: &[u8], policy: u32) -> Plan {
    let counts = calls.check(image).expect("accepted");
    let (n, cells) = (counts.n, (counts.n * counts.levels));
    let mut plan =
        Plan { counts, order: vec![0; n], limits: vec![0; cells], worst: vec![0; cells], bounds: vec![0; cells * 16] };
    let answer = calls.plan(image, policy, &mut plan.order, &mut plan.limits, &mut plan.worst, &mut plan.bounds);
    assert_eq!(answer, Ok(counts));
    plan
}

/// The plan of an accepted body; what is lent for it beyond its own size is left alone.
pub fn body_plan(calls: &dyn Calls, image: &[u8], repeats: u32, policy: u32) -> BodyPlan {
    BodyPlan::of(calls, image, repeats, policy).expect("an accepted body")
}

/// A sketch as the definitions take it.
pub fn profile(sketch: &Sketch) -> Profile {
    let row = |table: &[u32]| table.iter().map(|&time| i64::from(time)).collect::<Vec<i64>>();
    let rows = |table: &[u32]| table.chunks(sketch.levels as usize).map(row).collect();
    Profile {
        n: sketch.n as usize,
        levels: sketch.levels as usize,
        cycle: sketch.cycle.into(),
        masks: sketch.masks.clone(),
        deadlines: row(&sketch.deadlines),
        averages: rows(&sketch.averages),
        worst: rows(&sketch.worst),
    }
}

/// The rules' Three, with any cycle.
pub fn three(cycle: u32) -> Vec<u8> {
    Sketch {
        n: 3,
        levels: 2,
        cycle,
        masks: vec![0, 1, 2],
        deadlines: vec![0; 3],
        averages: vec![2, 6, 2, 6, 2, 6],
        worst: vec![4, 8, 4, 8, 4, 8],
        ..Sketch::default()
    }
    .image()
}

/// The chain of four by which the limits of 2005 fall along the order.
pub fn falling() -> Vec<u8> {
    Sketch {
        n: 4,
        levels: 2,
        cycle: 20,
        masks: vec![0, 1, 2, 4],
        deadlines: vec![0; 4],
        averages: vec![8, 8, 1, 6, 1, 2, 1, 4],
        worst: vec![8, 8, 2, 12, 2, 3, 2, 14],
        ..Sketch::default()
    }
    .image()
}

/// The rules' case 8.
pub fn case_8() -> Vec<u8> {
    Sketch {
        n: 3,
        levels: 1,
        cycle: 9,
        masks: vec![0, 0, 1],
        deadlines: vec![9, 6, 5],
        averages: vec![2; 3],
        worst: vec![2; 3],
        ..Sketch::default()
    }
    .image()
}

/// The rules' encoder.
pub fn encoder() -> Vec<u8> {
    const MOTION: [(u32, u32); 8] = [
        (215, 1000),
        (30000, 100000),
        (50000, 200000),
        (95000, 350000),
        (110000, 500000),
        (120000, 1200000),
        (150000, 1200000),
        (200000, 1500000),
    ];
    const FIXED: [(u32, u32); 8] = [
        (12000, 24000),
        (16000, 16000),
        (6000, 13000),
        (4000, 4000),
        (5000, 50000),
        (4000, 5000),
        (20000, 50000),
        (10000, 13000),
    ];
    let mut times = vec![FIXED[0]; 8];
    times.extend(MOTION);
    for pair in &FIXED[1..] {
        times.extend([*pair; 8]);
    }
    Sketch {
        n: 9,
        levels: 8,
        cycle: 320_000,
        masks: (0..9u64).map(|a| if a == 0 { 0 } else { 1 << (a - 1) }).collect(),
        deadlines: vec![0; 9],
        averages: times.iter().map(|pair| pair.0).collect(),
        worst: times.iter().map(|pair| pair.1).collect(),
        ..Sketch::default()
    }
    .image()
}
