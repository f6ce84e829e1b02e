//! Writes vectors: inputs with what the product must answer, in files that any program can read.

use crate::calls::{
    Answer, Calls, Fast, Reading, Reference, LAST_CLOCK, LONGEST_COAST, LONGEST_TIME, MOST_FRAMES, MOST_REPEATS,
    POLICY_2005, POLICY_2008,
};
use crate::draw::{big_endian, Draw, Pace, Size, Sketch, PACES};
use crate::reference::{accept, Planned};
use crate::text::{self, BodyPlan};
use std::fs;
use std::io;
use std::path::Path;

/// One image with durations for the two programs.
struct Case {
    what: String,
    image: Vec<u8>,
    policy: u32,
    durations: Vec<u8>,
}

/// One image with a trace.
struct Trace {
    what: &'static str,
    image: Vec<u8>,
    trace: Vec<u8>,
}

/// One image with a recording.
struct Recording {
    what: &'static str,
    image: Vec<u8>,
    policy: u32,
    recording: Vec<u8>,
}

/// One image to be repeated, with durations for a dry run.
struct Repeated {
    what: &'static str,
    image: Vec<u8>,
    repeats: u32,
    policy: u32,
    durations: Vec<u8>,
}

/// What was written.
#[derive(Clone, Debug, Default)]
pub struct Written {
    pub cases: usize,
    pub traces: usize,
    pub readings: usize,
    pub recordings: usize,
    pub bodies: usize,
    pub bytes: usize,
}

const INTRODUCTION: &str = "# Vectors

Made from the definitions of the rules, by a seed.

- NNN.profile (an image, any bytes), NNN.durations; NNN.plan is what the plan program prints for the image, NNN.dry what the dry-run program prints for both.
- tNN.profile, tNN.trace; then either tNN.refreshed, the new image, or tNN.refused, the line of the refusal.
- readings.txt: an image in hexadecimal, first position, last position, level, time, and the reading: `spent`, the refusal, or the 64 bits of the ratio in hexadecimal.
- rNN.profile, rNN.recording; rNN.rehearse is what the rehearsing program prints for both.
- bNN.body (an image), bNN.repeats; bNN.limits has the lines `position action limits..` that the program for a body repeated prints after its first, all of them or some, or the line of the refusal; bNN.bounds lines `position level length bound`; bNN.durations, and in bNN.dry what the dry run over them answers.
- NNN.policy, rNN.policy and bNN.policy have the year of the policy, decimal, which the programs are given as an argument.
- The line of a refusal is `refused` and its number; with 5 to 8 the lowest action at fault comes after that, 64 where only the header is.
";

/// Writes all vectors of a seed into a folder, which is made if it is not there.
pub fn write(folder: &Path, seed: u64) -> io::Result<Written> {
    fs::create_dir_all(folder)?;
    let mut maker = Maker { draw: Draw::new(seed), folder, written: Written::default() };
    let mut page = String::from(INTRODUCTION);
    page += "\n| case | policy | what | plan's first line | dry run's last line |\n|---|---|---|---|---|\n";
    for case in maker.cases() {
        page += &maker.case(&case)?;
    }
    page += "\n| trace | what | answer |\n|---|---|---|\n";
    for trace in maker.traces() {
        page += &maker.trace(&trace)?;
    }
    let readings = maker.readings();
    maker.file("readings.txt", readings.as_bytes())?;
    page += "\n| recording | policy | what | frame lines | last line |\n|---|---|---|---|---|\n";
    for recording in maker.recordings() {
        page += &maker.recording(&recording)?;
    }
    page += "\n| body | policy | what | N | plan's first line | dry run's last line |\n|---|---|---|---|---|---|\n";
    for body in maker.bodies() {
        page += &maker.body(&body)?;
    }
    maker.file("README.md", page.as_bytes())?;
    Ok(maker.written)
}

struct Maker<'a> {
    draw: Draw,
    folder: &'a Path,
    written: Written,
}

fn hex(bytes: &[u8]) -> String {
    bytes.iter().map(|byte| format!("{byte:02x}")).collect()
}

fn pace_name(pace: Pace) -> &'static str {
    match pace {
        Pace::Zero => "zero",
        Pace::Within => "within worst",
        Pace::Worst => "worst",
        Pace::Over => "some over worst",
        Pace::Absent => "one above 16,777,215",
    }
}

/// The worst times of an accepted image by position and level.
fn worst_by_position(image: &[u8]) -> Answer<Vec<u32>> {
    let planned = Planned::of(&accept(image)?);
    Ok(planned.worst.iter().flatten().map(|&time| time as u32).collect())
}

impl Maker<'_> {
    fn file(&mut self, name: &str, bytes: &[u8]) -> io::Result<()> {
        self.written.bytes += bytes.len();
        fs::write(self.folder.join(name), bytes)
    }

    /// The row of a case, whose files are written.
    fn case(&mut self, case: &Case) -> io::Result<String> {
        let name = format!("{:03}", self.written.cases);
        let Case { what, image, policy, durations } = case;
        let plan = text::plan(&Reference, image, *policy);
        let dry = text::dry_run(&Reference, image, *policy, durations);
        assert_eq!(plan, text::plan(&Fast, image, *policy), "{what}");
        assert_eq!(dry, text::dry_run(&Fast, image, *policy, durations), "{what}");
        self.file(&format!("{name}.profile"), image)?;
        self.file(&format!("{name}.policy"), format!("{policy}\n").as_bytes())?;
        self.file(&format!("{name}.durations"), durations)?;
        self.file(&format!("{name}.plan"), plan.as_bytes())?;
        self.file(&format!("{name}.dry"), dry.as_bytes())?;
        self.written.cases += 1;
        let (first, last) = (plan.lines().next().unwrap_or(""), dry.lines().last().unwrap_or(""));
        Ok(format!("| {name} | {policy} | {what} | {first} | {last} |\n"))
    }

    fn cases(&mut self) -> Vec<Case> {
        let mut cases = Vec::new();
        for (size, name, count) in [
            (Size::Tiny, "tiny", 60),
            (Size::Small, "small", 70),
            (Size::Large, "large", 35),
            (Size::Extreme, "extreme", 35),
        ] {
            for at in 0..count {
                let image = self.draw.profile(size).image();
                cases.push(self.with_durations(name, image, PACES[at % PACES.len()]));
            }
        }
        self.damaged(&mut cases);
        self.odd_durations(&mut cases);
        cases
    }

    /// Durations to an image; any few bytes to one that is refused.
    fn with_durations(&mut self, name: &str, image: Vec<u8>, pace: Pace) -> Case {
        let policy = self.draw.year();
        match worst_by_position(&image) {
            Ok(worst) => {
                let durations = self.draw.durations(&worst, pace);
                let what = format!("{name}, durations {}", pace_name(pace));
                Case { what, image, policy, durations: big_endian(&durations) }
            }
            Err(refused) => {
                let count = self.draw.index(20);
                Case { what: format!("{name}, {refused}"), image, policy, durations: self.draw.bytes(count) }
            }
        }
    }

    /// Damaged images, the same number of each refusal 1 to 9.
    fn damaged(&mut self, cases: &mut Vec<Case>) {
        const EACH: usize = 14;
        let mut met = [0; 10];
        while (1..=9).any(|number| met[number] < EACH) {
            let size = if self.draw.once_in(12) { Size::Large } else { Size::Small };
            let sketch = self.draw.profile(size);
            let image = self.draw.damaged(sketch);
            if let Err(refused) = accept(&image).map(|_| ()) {
                let met = &mut met[usize::from(refused.number)];
                if *met < EACH {
                    *met += 1;
                    cases.push(self.with_durations("damaged", image, Pace::Within));
                }
            }
        }
    }

    /// Durations cut, lengthened, or with an entry just too long or just not.
    fn odd_durations(&mut self, cases: &mut Vec<Case>) {
        let mut count = 0;
        while count < 21 {
            let image = self.draw.profile(Size::Small).image();
            if accept(&image).is_err() {
                continue;
            }
            let mut case = self.with_durations("small", image, Pace::Within);
            case.policy = self.draw.policy();
            let entry = 4 * self.draw.index(case.durations.len() / 4);
            case.what = match count % 7 {
                0 => {
                    case.durations.pop();
                    "durations one byte short"
                }
                1 => {
                    case.durations.clear();
                    "no durations"
                }
                2 => {
                    case.durations.truncate(entry);
                    "durations some entries short"
                }
                3 => {
                    case.durations.extend([0xff; 5]);
                    "durations longer than needed"
                }
                4 => {
                    case.durations[entry..entry + 4].copy_from_slice(&LONGEST_TIME.to_be_bytes());
                    "one entry 16,777,215"
                }
                5 => {
                    case.durations[entry..entry + 4].copy_from_slice(&(LONGEST_TIME + 1).to_be_bytes());
                    "one entry 16,777,216"
                }
                _ => {
                    case.durations[..4].copy_from_slice(&u32::MAX.to_be_bytes());
                    case.durations.pop();
                    "an entry too long, durations one byte short"
                }
            }
            .to_string();
            cases.push(case);
            count += 1;
        }
    }

    /// The row of a trace, whose files are written.
    fn trace(&mut self, case: &Trace) -> io::Result<String> {
        let name = format!("t{:02}", self.written.traces);
        let mut fresh = vec![0; case.image.len()];
        let answer = Reference.refresh(&case.image, &case.trace, &mut fresh);
        let mut again = vec![0; case.image.len()];
        assert_eq!(answer, Fast.refresh(&case.image, &case.trace, &mut again), "{}", case.what);
        assert_eq!(fresh, again, "{}", case.what);
        self.file(&format!("{name}.profile"), &case.image)?;
        self.file(&format!("{name}.trace"), &case.trace)?;
        match answer {
            Ok(_) => self.file(&format!("{name}.refreshed"), &fresh)?,
            Err(refused) => self.file(&format!("{name}.refused"), format!("{refused}\n").as_bytes())?,
        }
        self.written.traces += 1;
        let result = answer.map_or_else(|refused| refused.to_string(), |_| "refreshed".to_string());
        Ok(format!("| {name} | {} | {result} |\n", case.what))
    }

    fn traces(&mut self) -> Vec<Trace> {
        let mut traces = Vec::new();
        while traces.len() < 60 {
            let size = if self.draw.once_in(8) { Size::Large } else { Size::Small };
            let image = self.draw.image(size);
            let (n, levels, worst) = match accept(&image) {
                Ok(profile) => {
                    let worst = profile.worst.iter().flatten().map(|&time| time as u32).collect();
                    (profile.n, profile.levels, worst)
                }
                Err(_) => (1, 1, vec![0]),
            };
            let trace = self.draw.trace(n, levels, &worst);
            // Only one of the longest that there may be, at the end.
            if trace.len() < 1000 {
                traces.push(Trace { what: "drawn", image, trace });
            }
        }
        let image = loop {
            let image = self.draw.profile(Size::Tiny).image();
            if accept(&image).is_ok() {
                break image;
            }
        };
        // Closed records of action 0, level 0, duration 0.
        traces.push(Trace { what: "65,535 records, closed", image, trace: vec![0; 65_535 * 5] });
        traces
    }

    fn readings(&mut self) -> String {
        let mut lines = String::new();
        while self.written.readings < 200 {
            let size = if self.draw.once_in(20) { Size::Extreme } else { Size::Tiny };
            let image = self.draw.image(size);
            let (n, levels, cycle) = match accept(&image) {
                Ok(profile) => (profile.n, profile.levels, profile.cycle as u32),
                Err(_) => (3, 2, 20),
            };
            let [mut first, mut last] = [n - 1; 2].map(|most| self.draw.name(most));
            if first > last && !self.draw.once_in(6) {
                (first, last) = (last, first);
            }
            let level = self.draw.name(levels - 1);
            let time =
                if self.draw.once_in(6) { LAST_CLOCK + self.draw.between(0, 1) } else { self.draw.between(0, cycle) };
            let reading = Reference.speed_reading(&image, first, last, level, time);
            assert_eq!(reading, Fast.speed_reading(&image, first, last, level, time));
            let words = match reading {
                Reading::Ratio(ratio) => format!("{:016x}", ratio.to_bits()),
                Reading::Spent => "spent".to_string(),
                Reading::Refused(refused) => refused.to_string(),
            };
            // An image of no bytes has no digits to stand in a line.
            if !image.is_empty() {
                lines += &format!("{} {first} {last} {level} {time} {words}\n", hex(&image));
                self.written.readings += 1;
            }
        }
        lines
    }

    /// The row of a recording, whose files are written.
    fn recording(&mut self, case: &Recording) -> io::Result<String> {
        let name = format!("r{:02}", self.written.recordings);
        let Recording { what, image, policy, recording } = case;
        let lines = text::rehearse(&Reference, image, *policy, recording);
        assert_eq!(lines, text::rehearse(&Fast, image, *policy, recording), "{what}");
        self.file(&format!("{name}.profile"), image)?;
        self.file(&format!("{name}.policy"), format!("{policy}\n").as_bytes())?;
        self.file(&format!("{name}.recording"), recording)?;
        self.file(&format!("{name}.rehearse"), lines.as_bytes())?;
        self.written.recordings += 1;
        let (frames, last) = (lines.lines().count() - 1, lines.lines().last().unwrap_or(""));
        Ok(format!("| {name} | {policy} | {what} | {frames} | {last} |\n"))
    }

    /// Frames for worst times by position and level, of all paces.
    fn frames(&mut self, worst: &[u32], count: usize) -> Vec<u8> {
        let frame = |_| {
            let pace = self.draw.pick(&PACES);
            big_endian(&self.draw.durations(worst, pace))
        };
        (0..count).flat_map(frame).collect()
    }

    fn recordings(&mut self) -> Vec<Recording> {
        let mut recordings = Vec::new();
        while recordings.len() < 60 {
            let size = if self.draw.once_in(8) { Size::Large } else { Size::Small };
            let image = self.draw.image(size);
            let worst = worst_by_position(&image).unwrap_or(vec![4; 6]);
            let frames = self.draw.index(8);
            let mut recording = self.frames(&worst, frames);
            match self.draw.between(0, 9) {
                0 => recording.push(0),
                1 => recording.truncate(recording.len().saturating_sub(1)),
                _ => {}
            }
            recordings.push(Recording { what: "drawn", image, policy: self.draw.year(), recording });
        }
        let image = Sketch {
            n: 1,
            levels: 1,
            cycle: 9,
            masks: vec![0],
            deadlines: vec![0],
            averages: vec![2],
            worst: vec![4],
            ..Sketch::default()
        }
        .image();
        let most = self.frames(&[4], MOST_FRAMES);
        let over = [&most[..], &[0; 4]].concat();
        let (first, what) = (image.clone(), "4,096 frames of one entry");
        recordings.push(Recording { what, image: first, policy: POLICY_2008, recording: most });
        recordings.push(Recording { what: "4,097 frames", image, policy: POLICY_2005, recording: over });
        recordings
    }

    /// The row of a body, whose files are written.
    fn body(&mut self, case: &Repeated) -> io::Result<String> {
        /// The most positions of which all are told.
        const ALL: usize = 200;
        let name = format!("b{:02}", self.written.bodies);
        let Repeated { what, image, repeats, policy, durations } = case;
        let printed = text::repeat_plan(&Fast, image, *repeats, *policy);
        let (first, lines) = printed.split_once('\n').expect("a first line");
        let dry = text::repeat_dry_run(&Reference, image, *repeats, *policy, durations);
        assert_eq!(dry, text::repeat_dry_run(&Fast, image, *repeats, *policy, durations), "{what}");
        let (limits, bounds) = match BodyPlan::of(&Reference, image, *repeats, *policy) {
            Err(refused) => (format!("{refused}\n"), String::new()),
            Ok(plan) => {
                let step = plan.positions().div_ceil(ALL);
                let told = (0..plan.positions()).step_by(step).map(|position| plan.line(&Reference, position));
                let told = told.collect::<String>();
                assert!(step > 1 || told == lines, "{what}");
                let bounds = (0..40).map(|_| self.bound(&plan)).collect();
                (told, bounds)
            }
        };
        self.file(&format!("{name}.body"), image)?;
        self.file(&format!("{name}.repeats"), format!("{repeats}\n").as_bytes())?;
        self.file(&format!("{name}.policy"), format!("{policy}\n").as_bytes())?;
        self.file(&format!("{name}.limits"), limits.as_bytes())?;
        self.file(&format!("{name}.bounds"), bounds.as_bytes())?;
        self.file(&format!("{name}.durations"), durations)?;
        self.file(&format!("{name}.dry"), dry.as_bytes())?;
        self.written.bodies += 1;
        let last = dry.lines().last().unwrap_or("");
        Ok(format!("| {name} | {policy} | {what} | {repeats} | {first} | {last} |\n"))
    }

    /// The line of a drawn coast bound.
    fn bound(&mut self, plan: &BodyPlan) -> String {
        let (position, level) = (self.draw.index(plan.positions()), self.draw.index(plan.body.levels as usize));
        let length = 1 + self.draw.index(LONGEST_COAST);
        let bound = plan.bound(&Reference, position, level, length);
        assert_eq!(bound, plan.bound(&Fast, position, level, length));
        format!("{position} {level} {length} {bound}\n")
    }

    fn bodies(&mut self) -> Vec<Repeated> {
        let mut bodies = Vec::new();
        while bodies.len() < 60 {
            let (size, repeats) = (self.draw.pick(&[Size::Tiny, Size::Small]), self.draw.repeats());
            let image = self.draw.body_image(size, repeats);
            let policy = self.draw.year();
            let worst = BodyPlan::of(&Fast, &image, repeats, POLICY_2008)
                .map(|plan| plan.worst[..(plan.body.n * plan.body.levels) as usize].repeat(plan.body.repeats as usize));
            let worst = worst.unwrap_or_default();
            // Of the longest that there may be only those at the end.
            if worst.len() > 1000 {
                continue;
            }
            let pace = self.draw.pick(&PACES);
            let mut durations = big_endian(&self.draw.durations(&worst, pace));
            if self.draw.once_in(12) {
                durations.pop();
            }
            bodies.push(Repeated { what: "drawn", image, repeats, policy, durations });
        }
        let one = Sketch {
            n: 1,
            levels: 2,
            cycle: 3 * MOST_REPEATS,
            masks: vec![0],
            deadlines: vec![0],
            averages: vec![1, 3],
            worst: vec![2, 4],
            ..Sketch::default()
        };
        let durations = big_endian(&self.draw.durations(&[2, 4].repeat(MOST_REPEATS as usize), Pace::Within));
        let (image, policy) = (one.image(), POLICY_2005);
        let (repeats, what) = (MOST_REPEATS, "one action 1,620 times");
        bodies.push(Repeated { what, image: image.clone(), repeats, policy, durations });
        let repeats = MOST_REPEATS + 1;
        bodies.push(Repeated { what: "1,621 times", image, repeats, policy, durations: Vec::new() });
        bodies
    }
}
