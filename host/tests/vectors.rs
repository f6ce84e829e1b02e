//! The outside vectors, against all implementations.

mod common;

use nyokazerubi_host::calls::{Answer, Calls, Counts, Reading, Refused, POLICY_2008};
use nyokazerubi_host::text::{self, BodyPlan};
use std::fs;
use std::path::Path;

/// Names without their ending of all files that have it, sorted; none where there is no such folder.
fn cases(folder: &Path, ending: &str) -> Vec<String> {
    let mut names: Vec<String> = fs::read_dir(folder)
        .into_iter()
        .flatten()
        .filter_map(|entry| entry.expect("an entry").file_name().into_string().ok())
        .filter_map(|name| name.strip_suffix(ending).map(str::to_string))
        .collect();
    names.sort();
    names
}

fn bytes(folder: &Path, name: &str, ending: &str) -> Vec<u8> {
    let path = folder.join(format!("{name}.{ending}"));
    fs::read(&path).unwrap_or_else(|error| panic!("{}: {error}", path.display()))
}

fn text(folder: &Path, name: &str, ending: &str) -> String {
    String::from_utf8(bytes(folder, name, ending)).expect("plain text")
}

/// The year of the policy that a case has, that of 2008 where it has none.
fn policy(folder: &Path, name: &str) -> u32 {
    if !folder.join(format!("{name}.policy")).exists() {
        return POLICY_2008;
    }
    text(folder, name, "policy").trim().parse().expect("a year")
}

/// Both programs on the cases of a folder.
fn programs(calls: &dyn Calls, folder: &Path) -> usize {
    let names = cases(folder, ".plan");
    for name in &names {
        let (image, policy) = (bytes(folder, name, "profile"), policy(folder, name));
        let durations = bytes(folder, name, "durations");
        assert_eq!(text::plan(calls, &image, policy), text(folder, name, "plan"), "plan of {name}");
        assert_eq!(text::dry_run(calls, &image, policy, &durations), text(folder, name, "dry"), "dry run of {name}");
    }
    names.len()
}

/// The recordings of a folder, and in it those of their request.
fn recordings(calls: &dyn Calls) -> usize {
    let folder = common::vectors("test_recordings");
    [folder.clone(), folder.join("e2")].iter().map(|folder| recordings_in(calls, folder)).sum()
}

fn recordings_in(calls: &dyn Calls, folder: &Path) -> usize {
    let names = cases(folder, ".rehearse");
    for name in &names {
        let (image, policy) = (bytes(folder, name, "profile"), policy(folder, name));
        let lines = text::rehearse(calls, &image, policy, &bytes(folder, name, "recording"));
        assert_eq!(lines, text(folder, name, "rehearse"), "rehearsal of {name}");
    }
    names.len()
}

/// The bodies of a folder, and in it those of their request.
fn bodies(calls: &dyn Calls) -> usize {
    let folder = common::vectors("test_repeats");
    [folder.clone(), folder.join("e3")].iter().map(|folder| bodies_in(calls, folder)).sum()
}

fn bodies_in(calls: &dyn Calls, folder: &Path) -> usize {
    let names = cases(folder, ".body");
    for name in &names {
        let image = bytes(folder, name, "body");
        let repeats = text(folder, name, "repeats").trim().parse().expect("a number of repeats");
        let (limits, policy) = (text(folder, name, "limits"), policy(folder, name));
        match BodyPlan::of(calls, &image, repeats, policy) {
            Err(refused) => assert_eq!(limits, format!("{refused}\n"), "plan of {name}"),
            Ok(plan) => body(calls, folder, name, &plan, &limits),
        }
        // Where all positions are told, they are what the program prints.
        let printed = text::repeat_plan(calls, &image, repeats, policy);
        if limits.lines().count() + 1 == printed.lines().count() {
            assert_eq!(printed.split_once('\n').expect("a first line").1, limits, "program on {name}");
        }
        if folder.join(format!("{name}.dry")).exists() {
            let dry = text::repeat_dry_run(calls, &image, repeats, policy, &bytes(folder, name, "durations"));
            assert_eq!(dry, text(folder, name, "dry"), "dry run of {name}");
        }
    }
    names.len()
}

/// The limits and the coast bounds that are told of a body.
fn body(calls: &dyn Calls, folder: &Path, name: &str, plan: &BodyPlan, limits: &str) {
    for line in limits.lines() {
        let position = line.split(' ').next().expect("a position").parse().expect("a number");
        assert_eq!(plan.line(calls, position), format!("{line}\n"), "limits of {name}");
    }
    for line in text(folder, name, "bounds").lines() {
        let numbers: Vec<i64> = line.split(' ').map(|number| number.parse().expect("a number")).collect();
        let [position, level, length] = [0, 1, 2].map(|field| numbers[field] as usize);
        assert_eq!(plan.bound(calls, position, level, length), numbers[3], "bound of {name}: {line}");
    }
}

/// The refusal of a line: its number, and with 5 to 8 the action.
fn refusal(line: &str) -> Refused {
    let numbers = line.trim_end().strip_prefix("refused ").expect("a refusal").split(' ');
    let numbers: Vec<u32> = numbers.map(|number| number.parse().expect("a number")).collect();
    let refused = match numbers[..] {
        [number] => Refused::of(number),
        [number, action] => Refused::of(number).at(action as usize),
        _ => panic!("{line}"),
    };
    assert_eq!(refused.to_string(), line.trim_end(), "as it is printed");
    refused
}

/// The image that a refresh or a writing must give, or its refusal.
fn wanted(folder: &Path, name: &str, ending: &str) -> Answer<Vec<u8>> {
    if folder.join(format!("{name}.refused")).exists() {
        return Err(refusal(&text(folder, name, "refused")));
    }
    Ok(bytes(folder, name, ending))
}

/// An image in a lent slice of so many bytes, and its tail; with a refusal nothing is written.
fn lent_image(name: &str, room: usize, wanted: Answer<Vec<u8>>, run: impl Fn(&mut [u8]) -> Answer<usize>) {
    let mut lent = vec![0xa5; room];
    assert_eq!(run(&mut lent), wanted.as_ref().map(Vec::len).map_err(|&refused| refused), "answer of {name}");
    let wanted = wanted.unwrap_or_default();
    assert_eq!(lent[..wanted.len()], wanted, "image of {name}");
    assert!(lent[wanted.len()..].iter().all(|&byte| byte == 0xa5), "tail of {name}");
}

/// Images with actions at fault, which both programs say.
fn faults(calls: &dyn Calls, folder: &Path) -> usize {
    let names = cases(folder, ".plan");
    for name in &names {
        let (image, plan) = (bytes(folder, name, "profile"), text(folder, name, "plan"));
        assert_eq!(text::plan(calls, &image, POLICY_2008), plan, "plan of {name}");
        if plan.starts_with("refused") {
            assert_eq!(text::dry_run(calls, &image, POLICY_2008, &[]), plan, "dry run of {name}");
            assert_eq!(calls.check(&image), Err(refusal(&plan)), "check of {name}");
        }
    }
    names.len()
}

/// Tables with actions at fault, to be written.
fn writings(calls: &dyn Calls, folder: &Path) -> usize {
    let names = cases(folder, ".tables");
    for name in &names {
        let text = text(folder, name, "tables");
        let rows: Vec<Vec<u64>> = text
            .lines()
            .map(|line| line.split_whitespace().map(|number| number.parse().expect("a number")).collect())
            .collect();
        let [head, masks, deadlines, averages, worst] = &rows[..] else { panic!("{name} has five lines") };
        let [n, levels, cycle, room] = head[..] else { panic!("{name} has four numbers first") };
        let counts = Counts { n: n as usize, levels: levels as usize, cycle: cycle as u32 };
        let [deadlines, averages, worst] =
            [deadlines, averages, worst].map(|row| row.iter().map(|&time| time as u32).collect::<Vec<u32>>());
        lent_image(name, room as usize, wanted(folder, name, "written"), |image| {
            calls.write(counts, masks, &deadlines, &averages, &worst, image)
        });
    }
    names.len()
}

/// The traces of a folder, and in it those of each request.
fn traces(calls: &dyn Calls) -> usize {
    let folder = common::vectors("test_traces");
    [folder.clone(), folder.join("e1")].iter().map(|folder| traces_in(calls, folder)).sum()
}

fn traces_in(calls: &dyn Calls, folder: &Path) -> usize {
    let names = cases(folder, ".trace");
    for name in &names {
        let (image, trace) = (bytes(folder, name, "profile"), bytes(folder, name, "trace"));
        let wanted = wanted(folder, name, "refreshed");
        lent_image(name, image.len() + 3, wanted, |fresh| calls.refresh(&image, &trace, fresh));
    }
    names.len()
}

fn unhex(digits: &str) -> Vec<u8> {
    (0..digits.len() / 2).map(|at| u8::from_str_radix(&digits[2 * at..2 * at + 2], 16).expect("hexadecimal")).collect()
}

fn readings(calls: &dyn Calls) -> usize {
    let lines = fs::read_to_string(common::vectors("test_readings").join("readings.txt")).expect("readings.txt");
    for (at, line) in lines.lines().enumerate() {
        let fields: Vec<&str> = line.split_whitespace().collect();
        let number = |field: usize| fields[field].parse::<usize>().expect("a number");
        let wanted = match fields[5] {
            "spent" => Reading::Spent,
            "refused" => Reading::Refused(refusal(&fields[5..].join(" "))),
            digits => Reading::Ratio(f64::from_bits(u64::from_str_radix(digits, 16).expect("64 bits"))),
        };
        let got = calls.speed_reading(&unhex(fields[0]), number(1), number(2), number(3), number(4) as u32);
        assert_eq!(got, wanted, "line {} of readings.txt", at + 1);
    }
    lines.lines().count()
}

#[test]
fn programs_agree() {
    let folder = common::vectors("test_cases");
    for (name, calls) in common::sides() {
        assert!(programs(&*calls, &folder) >= 71, "{name}");
    }
}

#[test]
fn policies_agree() {
    let Some(folder) = common::vectors_of_request("test_policies", "e5") else { return };
    for (name, calls) in common::sides() {
        assert_eq!(programs(&*calls, &folder), 37, "{name}");
    }
}

#[test]
fn faults_agree() {
    let Some(folder) = common::vectors_of_request("test_faults", "e4") else { return };
    for (name, calls) in common::sides() {
        assert_eq!((faults(&*calls, &folder), writings(&*calls, &folder)), (31, 16), "{name}");
    }
}

#[test]
fn recordings_agree() {
    for (name, calls) in common::sides() {
        assert!(recordings(&*calls) >= 27, "{name}");
    }
}

#[test]
fn bodies_agree() {
    for (name, calls) in common::sides() {
        assert!(bodies(&*calls) >= 35, "{name}");
    }
}

#[test]
fn traces_agree() {
    for (name, calls) in common::sides() {
        assert!(traces(&*calls) >= 56, "{name}");
    }
}

#[test]
fn readings_agree() {
    for (name, calls) in common::sides() {
        assert!(readings(&*calls) >= 40, "{name}");
    }
}
