//! Values at the far ends of the ranges, on all sides.

mod common;

use nyokazerubi_host::calls::{
    refused, Body, BodyDried, BodyRun, BodyTables, Calls, Counts, Dried, Given, Line, Opened, Reading, Refused, Run,
    Tables, Totals, ABSENT_LONG, LAST_CLOCK, LONGEST_COAST, LONGEST_TIME, MOST_RECORDS, MOST_REPEATS, POLICY_2005,
    POLICY_2008,
};
use nyokazerubi_host::draw::{big_endian, Sketch};

fn on_all_sides(test: fn(&dyn Calls)) {
    for (name, calls) in common::sides() {
        println!("{name}");
        test(&*calls);
    }
}

/// By each policy.
fn by_both(test: fn(&dyn Calls, u32)) {
    for (name, calls) in common::sides() {
        for policy in common::POLICIES {
            println!("{name} by {policy}");
            test(&*calls, policy);
        }
    }
}

/// Profiles of 64 actions and 8 levels, all times the same.
fn full(masks: Vec<u64>, average: u32, worst: u32, cycle: u32) -> Sketch {
    Sketch {
        n: 64,
        levels: 8,
        cycle,
        masks,
        deadlines: vec![0; 64],
        averages: vec![average; 512],
        worst: vec![worst; 512],
        ..Sketch::default()
    }
}

/// A record of a trace.
fn record(open: bool, action: u64, level: u64, duration: u64) -> [u8; 5] {
    let bits = u64::from(open) << 39 | action << 33 | level << 30 | duration;
    bits.to_be_bytes()[3..].try_into().expect("five bytes")
}

/// What the calls on an image answer that refuse it, all of them the same.
fn refusal(calls: &dyn Calls, image: &[u8]) -> Refused {
    let reading = match calls.speed_reading(image, 0, 0, 0, 0) {
        Reading::Refused(refused) => Some(refused),
        _ => None,
    };
    let refusals = [
        calls.check(image).err(),
        calls.read(image, &mut [], &mut [], &mut [], &mut []).err(),
        calls.lookup_refusal(image, 0).err(),
        calls.plan(image, 0, &mut [], &mut [], &mut [], &mut []).err(),
        calls.dry_frame(image, 0, &[], &mut [], &mut [], &mut []).err(),
        calls.open_recording(image, 0, 1, &mut [], &mut [], &mut [], &mut []).err(),
        calls.plan_body(image, 0, 0, &mut [], &mut [], &mut []).err(),
        calls.body_dry_frame(image, 0, 0, &[], &mut [], &mut [], &mut []).err(),
        calls.refresh(image, &[0], &mut []).err(),
        reading,
    ];
    assert_eq!(refusals, [refusals[0]; 10]);
    assert!(calls.lookup(image, 0).is_empty() && !calls.on_time(image, 0, 0, 0, 0));
    refusals[0].expect("a refusal")
}

/// A refusal, and how an action of a profile comes to be at fault for it.
type Fault = (Refused, fn(&mut Sketch, usize));

/// Those of an image.
const FAULTS: [Fault; 10] = [
    (refused::SPARE, |sketch, a| sketch.spares[a] |= 1),
    (refused::SPARE, |sketch, a| sketch.spares[a] |= 2),
    (refused::RANGE, |sketch, a| sketch.deadlines[a] = sketch.cycle + 1),
    (refused::RANGE, |sketch, a| sketch.masks[a] |= 1 << sketch.n),
    (refused::RANGE, |sketch, a| sketch.masks[a] |= 1 << 63),
    (refused::TABLE, |sketch, a| sketch.averages[3 * a] = 8),
    (refused::TABLE, |sketch, a| sketch.averages[3 * a + 2] = 8),
    (refused::TABLE, |sketch, a| sketch.averages[3 * a + 1] = 1),
    (refused::TABLE, |sketch, a| sketch.worst[3 * a + 2] = 6),
    (refused::LOOP, |sketch, a| sketch.masks[a] |= 1 << a),
];

/// A profile of so many actions and three levels, with room for a fault.
fn sound(n: usize) -> Sketch {
    Sketch {
        n: n as u32,
        levels: 3,
        cycle: 10_000,
        masks: vec![0; n],
        deadlines: vec![0; n],
        spares: vec![0; n],
        averages: vec![2; 3 * n],
        worst: vec![7; 3 * n],
        ..Sketch::default()
    }
}

/// The lowest action at fault is named, however many are and whatever their faults of that number; each number is judged over all actions before the
/// next. In the header a spare bit has no action.
#[test]
fn the_action_at_fault() {
    on_all_sides(|calls| {
        let named = |sketch: &Sketch| refusal(calls, &sketch.image());
        for (n, low, high) in [(2, 0, 1), (5, 0, 4), (5, 2, 3), (63, 61, 62), (63, 7, 40)] {
            for (first, put_first) in FAULTS {
                let mut sketch = sound(n);
                put_first(&mut sketch, high);
                assert_eq!(named(&sketch), first.at(high));
                for (second, put_second) in FAULTS {
                    let mut both = sketch.clone();
                    put_second(&mut both, low);
                    let wanted = if second.number <= first.number { second.at(low) } else { first.at(high) };
                    assert_eq!(named(&both), wanted, "{both:?}");
                }
                sketch.spare = 4;
                let wanted = if first == refused::SPARE { first.at(high) } else { refused::SPARE };
                assert_eq!(named(&sketch), wanted, "{sketch:?}");
            }
        }
        // The last of the most: there is no action that a mask could name too many.
        for (number, put) in FAULTS.into_iter().filter(|(number, _)| *number != refused::RANGE) {
            let mut sketch = sound(64);
            put(&mut sketch, 63);
            assert_eq!(named(&sketch), number.at(63));
        }
        let mut sketch = sound(64);
        sketch.deadlines[63] = sketch.cycle + 1;
        assert_eq!(named(&sketch), refused::RANGE.at(63));
        for spare in 1..8 {
            assert_eq!(named(&Sketch { spare, ..sound(3) }), refused::SPARE);
        }
        // No other number has one.
        let image = sound(3).image();
        for (damaged, refused) in [
            (image[..5].to_vec(), refused::SHORT),
            (Sketch { version: 2, spare: 1, ..sound(3) }.image(), refused::VERSION),
            (Sketch { cycle: 0, spare: 1, ..sound(3) }.image(), refused::COUNT),
            (image[..image.len() - 1].to_vec(), refused::LENGTH),
        ] {
            assert_eq!(refusal(calls, &damaged), refused);
        }
        assert_eq!(calls.check(&Sketch { cycle: 20, ..sound(3) }.image()), Err(refused::UNFIT));
    });
}

/// Those that tables to be written have besides.
const WRITTEN_FAULTS: [Fault; 5] = [
    (refused::RANGE, |sketch, a| sketch.averages[3 * a] = LONGEST_TIME + 1),
    (refused::RANGE, |sketch, a| sketch.averages[3 * a + 1] = u32::MAX),
    (refused::RANGE, |sketch, a| sketch.worst[3 * a + 2] = LONGEST_TIME + 1),
    (refused::RANGE, |sketch, a| sketch.worst[3 * a + 1] = u32::MAX),
    (refused::RANGE, |sketch, a| sketch.deadlines[a] = u32::MAX),
];

/// The same of a writing, whose times may be too long too; it has no spare bits.
#[test]
fn the_action_at_fault_of_a_writing() {
    on_all_sides(|calls| {
        let named = |sketch: &Sketch| {
            let Sketch { masks, deadlines, averages, worst, .. } = sketch;
            let counts = Counts { n: sketch.n as usize, levels: sketch.levels as usize, cycle: sketch.cycle };
            let mut image = vec![7; 2000];
            let answer = calls.write(counts, masks, deadlines, averages, worst, &mut image);
            assert!(answer.is_ok() || image == [7; 2000]);
            answer.err()
        };
        let faults = || FAULTS.into_iter().filter(|(refused, _)| *refused != refused::SPARE).chain(WRITTEN_FAULTS);
        for (n, low, high) in [(2, 0, 1), (5, 0, 4), (5, 2, 3), (50, 48, 49), (50, 7, 40)] {
            assert_eq!(named(&sound(n)), None);
            for (first, put_first) in faults() {
                let mut sketch = sound(n);
                put_first(&mut sketch, high);
                assert_eq!(named(&sketch), Some(first.at(high)), "{sketch:?}");
                for (second, put_second) in faults() {
                    let mut both = sketch.clone();
                    put_second(&mut both, low);
                    let wanted = if second.number <= first.number { second.at(low) } else { first.at(high) };
                    assert_eq!(named(&both), Some(wanted), "{both:?}");
                }
            }
        }
        // Before 6 comes 3, after 8 comes 9.
        let mut sketch = sound(3);
        WRITTEN_FAULTS[0].1(&mut sketch, 1);
        assert_eq!(named(&Sketch { levels: 0, ..sketch.clone() }), Some(refused::COUNT));
        sketch.worst.pop();
        assert_eq!(named(&sketch), Some(refused::ROOM));
        assert_eq!(named(&Sketch { cycle: 20, ..sound(3) }), Some(refused::UNFIT));
    });
}

/// The longest trace of the longest durations sums up right.
#[test]
fn full_trace() {
    on_all_sides(|calls| {
        let mut sketch = full(vec![0; 64], 7, LONGEST_TIME, LAST_CLOCK);
        let image = sketch.image();
        let mut trace = record(true, 63, 7, LONGEST_TIME.into()).repeat(MOST_RECORDS);
        let mut fresh = vec![0; image.len()];
        assert_eq!(calls.refresh(&image, &trace, &mut fresh), Ok(image.len()));
        sketch.averages[511] = LONGEST_TIME;
        assert_eq!(fresh, sketch.image());
        // One record shorter by one: rounded down.
        trace[4] -= 1;
        assert_eq!(calls.refresh(&image, &trace, &mut fresh), Ok(image.len()));
        sketch.averages[511] = LONGEST_TIME - 1;
        assert_eq!(fresh, sketch.image());
        trace.extend(record(true, 63, 7, 0));
        assert_eq!(calls.refresh(&image, &trace, &mut fresh), Err(refused::TRACE));
    });
}

/// A fault late in a trace hides behind none before it, and 15 and 16 go by the record.
#[test]
fn first_fault_of_a_trace() {
    on_all_sides(|calls| {
        let image = common::three(20);
        let number = |records: &[[u8; 5]], room: usize| {
            common::number(calls.refresh(&image, &records.concat(), &mut vec![0; room]))
        };
        let (good, long, absent) =
            (record(true, 2, 1, 8), record(false, 0, 0, 5), record(false, 3, 0, LAST_CLOCK.into()));
        assert_eq!(number(&[good, long, absent], 78), 16);
        assert_eq!(number(&[good, absent, long], 78), 15);
        assert_eq!(number(&[good, record(true, 0, 2, 0)], 78), 15);
        assert_eq!(number(&[long], 77), 16);
        assert_eq!(number(&[good], 77), 17);
        assert_eq!(number(&[], 77), 17);
        assert_eq!(number(&[], 78), 0);
    });
}

/// Orders of 64 actions where each names all before it, numbered up and down, and where nothing is named.
#[test]
fn dense_orders() {
    by_both(|calls, policy| {
        let up: Vec<u64> = (0..64).map(|a| (1u64 << a) - 1).collect();
        let down: Vec<u64> = up.iter().rev().map(|mask| mask.reverse_bits()).collect();
        let mut order = [0; 64];
        let plan = |image: &[u8], order: &mut [u8]| {
            calls.plan(image, policy, order, &mut [0; 512], &mut [0; 512], &mut [0; 8192])
        };
        for (masks, first, last) in [(up, 0, 63), (down, 63, 0), (vec![0; 64], 0, 63)] {
            let image = full(masks.clone(), LONGEST_TIME, LONGEST_TIME, 64 * LONGEST_TIME).image();
            assert_eq!(plan(&image, &mut order), Ok(Counts { n: 64, levels: 8, cycle: 64 * LONGEST_TIME }));
            assert_eq!((order[0], order[63]), (first, last));
            let image = full(masks, LONGEST_TIME, LONGEST_TIME, 64 * LONGEST_TIME - 1).image();
            assert_eq!(plan(&image, &mut order), Err(refused::UNFIT));
        }
        let mut sketch = full(vec![0; 64], 0, 1, 64);
        sketch.deadlines = (1..=64).rev().collect();
        assert_eq!(plan(&sketch.image(), &mut order), Ok(Counts { n: 64, levels: 8, cycle: 64 }));
        assert!((0..64).all(|i| order[i] == 63 - i as u8));
    });
}

/// The lowest limits and coast bounds that there are: nothing wraps.
#[test]
fn lowest_limits() {
    by_both(|calls, policy| {
        let masks = (0..64).map(|a| if a == 0 { 0 } else { 1 << (a - 1) }).collect();
        let mut sketch = full(masks, 0, 0, 1);
        for cell in (0..512).filter(|cell| cell % 8 > 0) {
            (sketch.averages[cell], sketch.worst[cell]) = (LONGEST_TIME, LONGEST_TIME);
        }
        let (mut limits, mut bounds) = ([0; 512], [0; 8192]);
        let answer = calls.plan(&sketch.image(), policy, &mut [0; 64], &mut limits, &mut [0; 512], &mut bounds);
        assert_eq!(answer, Ok(Counts { n: 64, levels: 8, cycle: 1 }));
        assert_eq!(limits[..2], [1, 1 - 64 * LONGEST_TIME as i32]);
        // The limit falls towards the start, so the first is the least: 64 actions left.
        assert_eq!(bounds[16..32], [1 - 64 * LONGEST_TIME as i32; 16]);
        assert_eq!(bounds[(63 * 8 + 1) * 16..][..2], [1 - LONGEST_TIME as i32, i32::MIN]);
    });
}

/// Readings of the longest sums and the smallest rooms.
#[test]
fn readings_at_the_ends() {
    on_all_sides(|calls| {
        let image = full(vec![0; 64], LONGEST_TIME, LONGEST_TIME, 64 * LONGEST_TIME).image();
        assert_eq!(calls.speed_reading(&image, 0, 63, 0, 0), Reading::Ratio(1.0));
        assert_eq!(
            calls.speed_reading(&image, 0, 63, 7, 64 * LONGEST_TIME - 1),
            Reading::Ratio(f64::from(64 * LONGEST_TIME))
        );
        assert_eq!(calls.speed_reading(&image, 0, 63, 7, 64 * LONGEST_TIME), Reading::Spent);
        assert_eq!(calls.speed_reading(&image, 0, 63, 7, LAST_CLOCK), Reading::Spent);
        assert_eq!(calls.speed_reading(&image, 0, 63, 7, LAST_CLOCK + 1), Reading::Refused(refused::CLOCK));
        assert_eq!(calls.speed_reading(&image, 0, 64, 7, LAST_CLOCK + 1), Reading::Refused(refused::READING));
        assert_eq!(calls.speed_reading(&image, usize::MAX, usize::MAX, 0, 0), Reading::Refused(refused::READING));
        let image = full(vec![0; 64], 0, 0, LAST_CLOCK).image();
        assert_eq!(calls.speed_reading(&image, 0, 63, 0, 0), Reading::Ratio(0.0));
    });
}

/// Each field of a run record at its last accepted value and one over, asked and reported.
#[test]
fn run_records() {
    on_all_sides(|calls| {
        let refused = |run: Run| {
            let (asked, answer) = calls.ask(run, &[0; 64], &[0; 512], &[0; 8192]);
            let (reported, number) = calls.report(run, run.clock, &[0; 512]);
            if answer.is_err() {
                assert_eq!(asked, run);
            }
            if number != 0 {
                assert_eq!(reported, run);
            }
            answer.err() == Some(refused::TURN) && number == 11
        };
        let still = Run { n: 20, levels: 3, ..Run::default() };
        let runs = Run { running: true, ..still };
        assert!(!refused(still) && !refused(runs));
        for (good, bad) in [
            (Run { n: 64, ..still }, Run { n: 65, ..still }),
            (Run { n: 1, ..still }, Run { n: 0, ..still }),
            (Run { levels: 8, ..still }, Run { levels: 9, ..still }),
            (Run { levels: 1, ..still }, Run { levels: 0, ..still }),
            (Run { position: 20, ..still }, Run { position: 21, ..still }),
            (Run { position: 19, ..runs }, Run { position: 20, ..runs }),
            (Run { clock: LAST_CLOCK, ..still }, Run { clock: LAST_CLOCK + 1, ..still }),
            (Run { level: 2, ..still }, Run { level: 3, ..still }),
            (Run { left: 15, ..still }, Run { left: 16, ..still }),
            (Run { left: 15, ..runs }, Run { left: 16, ..runs }),
            (Run { position: 18, left: 2, ..still }, Run { position: 18, left: 3, ..still }),
            (Run { position: 18, left: 1, ..runs }, Run { position: 18, left: 2, ..runs }),
            (Run { position: 5, decisions: 5, ..still }, Run { position: 5, decisions: 6, ..still }),
            (Run { position: 5, decisions: 6, ..runs }, Run { position: 5, decisions: 7, ..runs }),
        ] {
            assert!(!refused(good), "{good:?}");
            assert!(refused(bad), "{bad:?}");
        }
    });
}

/// The order of a run call's refusals: range, room, turn, finished, back, clock.
#[test]
fn refusals_of_a_run_in_order() {
    on_all_sides(|calls| {
        let ask = |run: Run, room: usize| common::number(calls.ask(run, &[0; 2][..room], &[0; 2], &[0; 32]).1);
        let report = |run: Run, clock: u32, room: usize| calls.report(run, clock, &[0; 2][..room]).1;
        let still = Run { n: 2, levels: 1, clock: 9, ..Run::default() };
        let runs = Run { running: true, ..still };
        let over = Run { level: 1, ..runs };
        let done = Run { position: 2, ..still };
        assert_eq!([ask(over, 1), ask(runs, 1), ask(runs, 2), ask(done, 1), ask(done, 2)], [11, 17, 11, 17, 10]);
        assert_eq!([report(over, 0, 1), report(still, 0, 1), report(still, 0, 2)], [11, 17, 11]);
        assert_eq!([report(runs, 8, 1), report(runs, 8, 2), report(runs, LAST_CLOCK + 1, 2)], [17, 12, 13]);
        assert_eq!([report(runs, 9, 2), report(runs, LAST_CLOCK, 2), ask(still, 2)], [0, 0, 0]);
    });
}

/// With bounds that rise again the greatest r counts, and an overrun ends the coast.
#[test]
fn bounds_that_rise_again() {
    on_all_sides(|calls| {
        let mut bounds = [i32::MIN; 4 * 16];
        bounds[2] = 5;
        let tables = Tables { limits: &[5; 4], worst_by_position: &[3; 4], bounds: &bounds };
        let (mut given, mut decided) = ([9; 5], [9; 5]);
        let cycle = calls.dry_run(4, 1, tables, &[1, 1, 1, 1], &mut given, &mut decided);
        assert_eq!(cycle, Ok(Dried { decisions: 2, end: 4, overrun: false, late: false }));
        assert_eq!((given, decided), ([0, 0, 0, 0, 9], [1, 0, 0, 1, 9]));
        let cycle = calls.dry_run(4, 1, tables, &[4, 1, 1, 1], &mut given, &mut decided);
        assert_eq!(cycle, Ok(Dried { decisions: 4, end: 7, overrun: true, late: true }));
        assert_eq!(decided, [1, 1, 1, 1, 9]);
    });
}

/// A recording is judged by its length: whole frames, and no more than 4,096. The image's refusals come first, a lack of room last.
#[test]
fn lengths_of_a_recording() {
    by_both(|calls, policy| {
        let open = |image: &[u8], bytes: usize, rooms: [usize; 4]| {
            let mut lent = (vec![7; rooms[0]], vec![7; rooms[1]], vec![7; rooms[2]], vec![7; rooms[3]]);
            let answer = calls.open_recording(image, policy, bytes, &mut lent.0, &mut lent.1, &mut lent.2, &mut lent.3);
            (answer, lent)
        };
        let (image, rooms) = (common::three(20), [4, 7, 7, 97]);
        for frames in [0, 1, 4095, 4096] {
            let (answer, lent) = open(&image, 24 * frames, rooms);
            assert_eq!(answer, Ok(Opened { n: 3, levels: 2, frame_bytes: 24, frames }));
            // The tables are the plan's, and their tails are kept.
            let plan = common::plan(calls, &image, policy);
            assert_eq!((&lent.0[..3], &lent.1[..6]), (&plan.order[..], &plan.limits[..]));
            assert_eq!((&lent.2[..6], &lent.3[..96]), (&plan.worst[..], &plan.bounds[..]));
            assert_eq!((lent.0[3], lent.1[6], lent.2[6], lent.3[96]), (7, 7, 7, 7));
        }
        let refused = |image: &[u8], bytes: usize, rooms: [usize; 4]| {
            let (answer, lent) = open(image, bytes, rooms);
            assert_eq!(lent, (vec![7; rooms[0]], vec![7; rooms[1]], vec![7; rooms[2]], vec![7; rooms[3]]));
            assert!(answer.is_err());
            common::number(answer)
        };
        for bytes in [1, 23, 25, 24 * 4096 - 1, 24 * 4096 + 12, 24 * 4097, usize::MAX, usize::MAX - 15, 24 + (1 << 32)]
        {
            assert_eq!(refused(&image, bytes, rooms), 14, "{bytes}");
        }
        for (place, needed) in [3, 6, 6, 96].into_iter().enumerate() {
            let mut rooms = rooms;
            rooms[place] = needed - 1;
            assert_eq!([refused(&image, 48, rooms), refused(&image, 49, rooms)], [17, 14]);
            assert_eq!([refused(&common::three(11), 49, rooms), refused(&image[..5], 49, rooms)], [9, 1]);
        }
    });
}

/// A year that is none is refused with no action after 9, and before a lack of room, a recording's length and a duration; nothing is written.
#[test]
fn a_policy_that_is_none() {
    on_all_sides(|calls| {
        let (image, unfit) = (common::three(20), common::three(11));
        let number = |image: &[u8], year: u32, room: usize| {
            let (mut order, mut limits, mut worst, mut bounds) = ([7; 64], [7; 512], [7; 512], [7; 8192]);
            let (mut given, mut marks) = ([7; 64], [7; 64]);
            let durations = [LONGEST_TIME + 1; 6];
            let answers = [
                calls.plan(image, year, &mut order[..room], &mut limits, &mut worst, &mut bounds).err(),
                calls.dry_frame(image, year, &durations, &mut order[..room], &mut given, &mut marks).err(),
                calls.open_recording(image, year, 1, &mut order[..room], &mut limits, &mut worst, &mut bounds).err(),
            ];
            assert_eq!((order, given, marks), ([7; 64], [7; 64], [7; 64]));
            assert!(limits == [7; 512] && worst == [7; 512] && bounds == [7; 8192]);
            answers.map(|refused| refused.expect("a refusal"))
        };
        for year in [0, 1, 8, 2004, 2006, 2007, 2009, 1 << 16 | 2005, 1 << 16 | 2008, 1 << 31 | 2008, u32::MAX] {
            assert_eq!(number(&unfit, year, 0), [refused::UNFIT; 3], "{year}");
            assert_eq!(number(&image, year, 0), [refused::POLICY; 3], "{year}");
            assert_eq!(number(&image, year, 64), [refused::POLICY; 3], "{year}");
            assert_eq!(number(&image[..77], year, 0), [refused::LENGTH; 3], "{year}");
        }
        for policy in common::POLICIES {
            assert_eq!(number(&unfit, policy, 0), [refused::UNFIT; 3], "{policy}");
            assert_eq!(number(&image, policy, 0), [refused::ROOM, refused::ROOM, refused::TRACE], "{policy}");
        }
    });
}

/// Each of the totals at its last accepted value and one over. Of 4,096 frames there is no more to count.
#[test]
fn totals_at_their_edges() {
    on_all_sides(|calls| {
        let tables = Tables { limits: &[9], worst_by_position: &[9], bounds: &[9; 16] };
        let number = |totals: Totals| {
            let mut after = totals;
            let answer = calls.rehearse(&mut after, 1, 1, tables, &[0, 0, 0, 1]);
            let counted = Totals { frames: totals.frames.wrapping_add(1), ..totals };
            let decided = Totals { decisions: totals.decisions.wrapping_add(1), ..counted };
            assert_eq!(after, if answer.is_ok() { decided } else { totals });
            common::number(answer)
        };
        let five = Totals { frames: 5, ..Totals::default() };
        for (good, bad) in [
            (Totals::default(), Totals { decisions: 1, ..Totals::default() }),
            (Totals::default(), Totals { overruns: 1, ..Totals::default() }),
            (Totals::default(), Totals { lates: 1, ..Totals::default() }),
            (Totals { frames: 4095, ..five }, Totals { frames: 4097, ..five }),
            (Totals { frames: 4095, decisions: 64 * 4095, ..five }, Totals { frames: u32::MAX, ..five }),
            (Totals { decisions: 320, ..five }, Totals { decisions: 321, ..five }),
            (Totals { overruns: 5, ..five }, Totals { overruns: 6, ..five }),
            (Totals { lates: 5, ..five }, Totals { lates: 6, ..five }),
            // So many frames that 64 of each would be 0 in 32 bits.
            (five, Totals { frames: 1 << 26, ..five }),
        ] {
            assert_eq!([number(good), number(bad)], [0, 11], "{good:?} {bad:?}");
        }
        assert_eq!(number(Totals { frames: 4096, decisions: 64 * 4096, overruns: 4096, lates: 4096 }), 14);
        assert_eq!(number(Totals { frames: 4096, decisions: 64 * 4096 + 1, ..five }), 11);
    });
}

/// The order of a frame's refusals: totals out of range, a frame too many, count, room, duration. Refused, it counts in none.
#[test]
fn refusals_of_a_frame_in_order() {
    on_all_sides(|calls| {
        let frame = big_endian(&[1, LONGEST_TIME + 1, 1, 1]);
        let number = |frames: u32, n: usize, levels: usize, rooms: [usize; 4]| {
            let (limits, worst, bounds) = (vec![9; rooms[0]], vec![9; rooms[1]], vec![9; rooms[2]]);
            let tables = Tables { limits: &limits, worst_by_position: &worst, bounds: &bounds };
            let before = Totals { frames, ..Totals::default() };
            let mut totals = before;
            let answer = calls.rehearse(&mut totals, n, levels, tables, &frame[..rooms[3]]);
            assert_eq!(totals, before);
            assert!(answer.is_err());
            common::number(answer)
        };
        let (none, whole) = ([0; 4], [4, 4, 64, 16]);
        assert_eq!([number(4097, 0, 0, none), number(4096, 0, 0, none), number(4095, 0, 0, none)], [11, 14, 3]);
        for (n, levels) in [(65, 1), (1, 9), (usize::MAX, 2), (2, usize::MAX), (1 << 32 | 2, 2), (2, 1 << 32 | 2)] {
            assert_eq!(number(0, n, levels, whole), 3, "{n} {levels}");
        }
        for (place, room) in whole.into_iter().enumerate() {
            let mut rooms = whole;
            rooms[place] = room - 1;
            assert_eq!(number(0, 2, 2, rooms), 17);
        }
        assert_eq!(number(0, 2, 2, whole), 16);
    });
}

/// An entry that is too long is refused where it would be used and where it would not; after the frame it is none of its entries.
#[test]
fn long_entries() {
    on_all_sides(|calls| {
        let plan = common::plan(calls, &common::three(20), POLICY_2008);
        let rehearse = |durations: &[u32]| {
            calls.rehearse(&mut Totals::default(), 3, 2, plan.tables(), &big_endian(durations)).map(|line| line.end)
        };
        for (cell, long) in (0..6).flat_map(|cell| [LONGEST_TIME + 1, 1 << 31, u32::MAX].map(|long| (cell, long))) {
            for mut durations in [[0; 6], [6, 6, 8, 8, 4, 4]] {
                durations[cell] = long;
                assert_eq!(rehearse(&durations), Err(refused::DURATION), "{long} at {cell}");
            }
        }
        assert_eq!(rehearse(&[6, 6, 8, 8, 4, 4, u32::MAX]), Ok(18));
        // The longest that there may be; of those at a level that is not given nothing is seen.
        assert_eq!(rehearse(&[LONGEST_TIME, 6, LONGEST_TIME, 8, 4, LONGEST_TIME]), Ok(18));
        assert_eq!(rehearse(&[LONGEST_TIME; 6]), Ok(3 * LONGEST_TIME));
    });
}

/// The longest recording of the most actions, each of them decided, too long and late: the totals reach their edges, and no further frame is counted.
#[test]
fn the_longest_recording() {
    on_all_sides(|calls| {
        let tables = Tables { limits: &[-1; 64], worst_by_position: &[0; 64], bounds: &[i32::MIN; 1024] };
        let frame = big_endian(&[LONGEST_TIME; 64]);
        let line = Line { decisions: 64, lowest: 0, end: 64 * LONGEST_TIME, overrun: true, late: true };
        let mut totals = Totals::default();
        for _ in 0..4096 {
            assert_eq!(calls.rehearse(&mut totals, 64, 1, tables, &frame), Ok(line));
        }
        let full = Totals { frames: 4096, decisions: 64 * 4096, overruns: 4096, lates: 4096 };
        assert_eq!(totals, full);
        assert_eq!(calls.rehearse(&mut totals, 64, 1, tables, &frame), Err(refused::TRACE));
        assert_eq!(totals, full);
    });
}

/// The lowest level is of all positions: of a coast, of what is decided anew after an overrun, and of the last action alone.
#[test]
fn lowest_levels() {
    on_all_sides(|calls| {
        // Level 1 up to time 5, and a coast of all four actions at the start.
        let mut bounds = [i32::MIN; 4 * 2 * 16];
        bounds[16 + 3] = 5;
        let tables = Tables { limits: &[100, 5].repeat(4), worst_by_position: &[3; 8], bounds: &bounds };
        let rehearse = |durations: [u32; 4]| {
            let frame = big_endian(&durations.map(|duration| [duration; 2]).concat());
            let Line { decisions, lowest, end, overrun, .. } =
                calls.rehearse(&mut Totals::default(), 4, 2, tables, &frame).expect("a frame");
            (decisions, lowest, end, overrun)
        };
        assert_eq!(rehearse([3, 3, 3, 3]), (1, 1, 12, false));
        assert_eq!(rehearse([3, 4, 0, 0]), (3, 0, 7, true));
        assert_eq!(rehearse([0, 0, 6, 0]), (2, 0, 6, true));
        assert_eq!(rehearse([0, 0, 5, 0]), (2, 1, 5, true));
        assert_eq!(rehearse([0, 0, 0, 6]), (1, 1, 6, true));
    });
}

/// A body of Three, its deadlines as told.
fn body_of_three(cycle: u32, deadlines: [u32; 3]) -> Vec<u8> {
    Sketch {
        n: 3,
        levels: 2,
        cycle,
        masks: vec![0, 1, 2],
        deadlines: deadlines.to_vec(),
        averages: vec![2, 6, 2, 6, 2, 6],
        worst: vec![4, 8, 4, 8, 4, 8],
        ..Sketch::default()
    }
    .image()
}

/// The refusals of planning a body and of its dry run in their order: the image's own but 9, repeats, 9, policy, room, duration. Nothing is written
/// with one.
#[test]
fn refusals_of_a_body_in_order() {
    by_both(|calls, policy| {
        let plan_by = |image: &[u8], repeats: u32, policy: u32, rooms: [usize; 3]| {
            let mut lent = (vec![7; rooms[0]], vec![7; rooms[1]], vec![7; rooms[2]]);
            let answer = calls.plan_body(image, repeats, policy, &mut lent.0, &mut lent.1, &mut lent.2);
            let untouched = lent == (vec![7; rooms[0]], vec![7; rooms[1]], vec![7; rooms[2]]);
            assert_eq!(answer.is_err(), untouched);
            common::number(answer)
        };
        let frame_by = |image: &[u8], repeats: u32, policy: u32, entries: usize, rooms: [usize; 3]| {
            let mut durations = vec![1; entries];
            durations[11.min(entries - 1)] = LONGEST_TIME + 1;
            let mut lent = (vec![7; rooms[0]], vec![7; rooms[1]], vec![7; rooms[2]]);
            let answer =
                calls.body_dry_frame(image, repeats, policy, &durations, &mut lent.0, &mut lent.1, &mut lent.2);
            assert_eq!(lent, (vec![7; rooms[0]], vec![7; rooms[1]], vec![7; rooms[2]]));
            assert!(answer.is_err());
            common::number(answer)
        };
        let plan = |image: &[u8], repeats: u32, rooms: [usize; 3]| plan_by(image, repeats, policy, rooms);
        let frame = |image: &[u8], repeats: u32, entries: usize, rooms: [usize; 3]| {
            frame_by(image, repeats, policy, entries, rooms)
        };
        let (whole, none) = ([3, 24, 6], [0; 3]);
        let same = body_of_three(24, [0, 24, 0]);
        assert_eq!(plan(&same, 2, whole), 0);
        for repeats in [0, MOST_REPEATS + 1, u32::MAX] {
            // 19 before 9 and 17, after the image's own.
            for image in [&same, &body_of_three(23, [0; 3]), &body_of_three(11, [0; 3]), &body_of_three(24, [0, 23, 0])]
            {
                assert_eq!([plan(image, repeats, none), frame(image, repeats, 1, none)], [19, 19]);
            }
            assert_eq!([plan(&same[..77], repeats, none), plan(&same[..5], repeats, none)], [4, 1]);
        }
        for deadline in [1, 12, 23] {
            let own = body_of_three(24, [0, 0, deadline]);
            assert_eq!([plan(&own, 2, none), plan(&own, 1, whole), frame(&own, 1, 1, none)], [19; 3]);
        }
        // Twelve units a repeat: two fit 24, and not 23.
        let tight = body_of_three(23, [23, 0, 0]);
        assert_eq!([plan(&tight, 1, whole), plan(&tight, 2, none), frame(&tight, 2, 1, none)], [0, 9, 9]);
        assert_eq!([plan(&same, 3, none), frame(&same, MOST_REPEATS, 1, none)], [9, 9]);
        // 20 after 9 and before 17.
        for year in [0, 2004, 2006, 2007, 2009, 1 << 16 | policy, u32::MAX] {
            assert_eq!([plan_by(&same, 0, year, none), frame_by(&same, 0, year, 1, none)], [19, 19]);
            assert_eq!([plan_by(&tight, 2, year, none), frame_by(&tight, 2, year, 1, none)], [9, 9]);
            assert_eq!([plan_by(&same, 2, year, none), plan_by(&same, 2, year, whole)], [20, 20]);
            assert_eq!([frame_by(&same, 2, year, 1, none), frame_by(&same, 2, year, 12, [3, 6, 6])], [20, 20]);
        }
        for place in 0..3 {
            let (mut rooms, mut frames) = (whole, [3, 6, 6]);
            rooms[place] -= 1;
            frames[place] -= 1;
            assert_eq!([plan(&same, 2, rooms), frame(&same, 2, 12, frames)], [17, 17]);
        }
        assert_eq!([frame(&same, 2, 11, [3, 6, 6]), frame(&same, 2, 12, [3, 6, 6])], [17, 16]);
        let mut lent = (vec![7; 4], vec![7; 25], vec![7; 7]);
        let body = calls.plan_body(&same, 2, policy, &mut lent.0, &mut lent.1, &mut lent.2);
        assert_eq!(body, Ok(Body { n: 3, levels: 2, cycle: 24, repeats: 2, policy }));
        assert_eq!(lent.0, [0, 1, 2, 7]);
        // At level 1, by 2008 a mixed sum, by 2005 the safe one.
        let third = if policy == POLICY_2008 { [20, 14, 8] } else { [16, 12, 8] };
        let sums = [
            [[6, 12, 12, 12], [18, 12, third[0], 24]],
            [[4, 8, 8, 8], [12, 8, third[1], 16]],
            [[2, 4, 4, 4], [6, 4, third[2], 8]],
        ];
        assert_eq!(lent.1[..24], sums.concat().concat());
        assert_eq!(lent.1[24], 7);
        assert_eq!(lent.2, [4, 8, 4, 8, 4, 8, 7]);
    });
}

/// Limits and coast bounds: what is refused, and in which order; the longest sums that there may be, of a plan and of no plan.
#[test]
fn limits_of_a_body() {
    by_both(|calls, policy| {
        let body = Body { n: 2, levels: 3, cycle: 9, repeats: 4, policy };
        let limit = |body: Body, room: usize, position: usize, level: usize| {
            common::number(calls.body_limit(body, &[1; 24][..room], position, level))
        };
        let bound = |body: Body, rooms: [usize; 2], position: usize, level: usize, length: usize| {
            let (summaries, worst) = (&[1; 24][..rooms[0]], &[1; 6][..rooms[1]]);
            common::number(calls.body_bound(body, summaries, worst, position, level, length))
        };
        let counts = [
            Body { n: 0, ..body },
            Body { n: 65, ..body },
            Body { levels: 0, ..body },
            Body { levels: 9, ..body },
            Body { cycle: 0, ..body },
            Body { cycle: LAST_CLOCK + 1, ..body },
            Body { n: u32::MAX, repeats: 0, ..body },
        ];
        for out in counts {
            assert_eq!([limit(out, 0, 99, 99), bound(out, [0, 0], 99, 99, 99)], [3, 3], "{out:?}");
        }
        for repeats in [0, MOST_REPEATS + 1, u32::MAX] {
            let out = Body { repeats, ..body };
            assert_eq!([limit(out, 0, 99, 99), bound(out, [0, 0], 99, 99, 99)], [19, 19], "{out:?}");
        }
        for policy in [0, 2004, 2006, 2007, 2009, 1 << 16 | policy, u32::MAX] {
            let out = Body { policy, ..body };
            assert_eq!([limit(out, 0, 99, 99), bound(out, [0, 0], 99, 99, 99)], [20, 20], "{out:?}");
            let out = Body { repeats: 0, ..out };
            assert_eq!([limit(out, 0, 99, 99), bound(out, [0, 0], 99, 99, 99)], [19, 19], "{out:?}");
        }
        assert_eq!([limit(body, 23, 99, 99), limit(body, 24, 7, 2)], [17, 0]);
        assert_eq!([bound(body, [23, 6], 99, 99, 99), bound(body, [24, 5], 99, 99, 99)], [17, 17]);
        for (position, level) in [(8, 0), (0, 3), (usize::MAX, 0), (0, usize::MAX), (1 << 32, 0), (0, 1 << 32)] {
            let numbers = [limit(body, 24, position, level), bound(body, [24, 6], position, level, 1)];
            assert_eq!(numbers, [18, 18], "{position} {level}");
        }
        for (length, number) in [(0, 18), (1, 0), (16, 0), (17, 18), (usize::MAX, 18), (1 << 32 | 1, 18)] {
            assert_eq!(bound(body, [24, 6], 0, 0, length), number, "{length}");
        }
        // A coast up to the last position, and one past it.
        assert_ne!(calls.body_bound(body, &[1; 24], &[1; 6], 5, 0, 3), Ok(ABSENT_LONG));
        assert_eq!(calls.body_bound(body, &[1; 24], &[1; 6], 5, 0, 4), Ok(ABSENT_LONG));

        // Entries of all bits: at the first position 1,619 bodies come after.
        let most = Body { n: 64, levels: 8, cycle: 1, repeats: MOST_REPEATS, policy };
        let all = i64::from(u32::MAX);
        let (summaries, worst) = (vec![u32::MAX; 2048], vec![u32::MAX; 512]);
        assert_eq!(calls.body_limit(most, &summaries, 0, 7), Ok(1 - 1620 * all));
        assert_eq!(calls.body_limit(most, &summaries, 103_679, 7), Ok(1 - all));
        assert_eq!(calls.body_bound(most, &summaries, &worst, 0, 6, 16), Ok(1 - 1635 * all));
        assert_eq!(calls.body_bound(most, &summaries, &worst, 103_664, 6, 16), Ok(1 - 16 * all));
        assert_eq!(calls.body_bound(most, &summaries, &worst, 103_665, 6, 16), Ok(ABSENT_LONG));
        // At the top level by its ends: within a body V is the same from both on, into the next it is one body more.
        assert_eq!(calls.body_bound(most, &summaries, &worst, 0, 7, 15), Ok(1 - 1634 * all));
        assert_eq!(calls.body_bound(most, &summaries, &worst, 0, 7, 16), Ok(1 - 1620 * all));
        assert_eq!(calls.body_bound(most, &summaries, &worst, 63, 7, 16), Ok(1 - 1620 * all));
        assert_eq!(calls.body_bound(most, &summaries, &worst, 103_664, 7, 16), Ok(1 - all));
        assert_eq!(calls.body_bound(most, &summaries, &worst, 103_665, 7, 15), Ok(1 - all));
        assert_eq!(calls.body_bound(most, &summaries, &worst, 103_665, 7, 16), Ok(ABSENT_LONG));
        // The most that is spent before the last: 15 bodies of one action.
        let single = Body { n: 1, levels: 1, cycle: 1, repeats: MOST_REPEATS, policy };
        let [spent, none] =
            [[0, 0, 0, u32::MAX], [0; 4]].map(|summaries| calls.body_bound(single, &summaries, &[u32::MAX], 0, 0, 16));
        assert_eq!([spent, none], [Ok(1 - 15 * all), Ok(1)]);
    });
}

/// What a decision at the first position of all leaves to coast at a time.
fn left_to_coast(calls: &dyn Calls, body: Body, summaries: &[u32], worst: &[u32], clock: u64) -> u8 {
    let tables = BodyTables { order: &[0; 64], summaries, worst_by_position: worst };
    let mut run = BodyRun { clock, body, ..BodyRun::default() };
    calls.body_ask(&mut run, &tables).expect("a turn");
    run.left
}

/// On tables of anyone the two readings of a coast may differ: at the top level, where it is as long as there may be, the greater bound counts.
#[test]
fn the_longest_coast_of_a_body_is_read_twice() {
    by_both(|calls, policy| {
        for (n, repeats) in [(20, 1), (4, 5), (1, 20), (3, 1), (1, 3), (5, 2), (64, MOST_REPEATS)] {
            let body = Body { n: n as u32, levels: 1, cycle: 1000, repeats, policy };
            let longest = LONGEST_COAST.min(n * repeats as usize);
            // V is 1 all over, so that by its ends a coast spends 1 for each body that it passes; or V falls by 7 with each place.
            let entries = |worst: &dyn Fn(usize) -> usize| -> Vec<u32> {
                (0..n).flat_map(|place| [0, 0, 0, worst(place) as u32]).collect()
            };
            let (flat, falling) = (entries(&|_| 1), entries(&|place| 7 * (n - place)));
            let (zeros, sevens) = (vec![0; n], vec![7; n]);
            let bound = |summaries: &[u32], worst: &[u32], length: usize| {
                calls.body_bound(body, summaries, worst, 0, 0, length).expect("it is there")
            };
            let granted = |summaries: &[u32], worst: &[u32], clock: i64| {
                usize::from(left_to_coast(calls, body, summaries, worst, clock as u64)) + 1
            };
            // Shorter ones are read at each position alone.
            let walked = |length: usize| 1000 - 7 * (length as i64 - 1);
            for length in 1..longest {
                let bounds = [bound(&flat, &sevens, length), bound(&falling, &zeros, length)];
                assert_eq!(bounds, [walked(length), 1000], "{n} {repeats} {length}");
            }
            // The ends grant it and the walk does not; later neither does, and the walk grants two.
            let by_ends = 1000 - (longest as i64 - 1) / n as i64;
            assert_eq!(bound(&flat, &sevens, longest), by_ends, "{n} {repeats}");
            assert_eq!(granted(&flat, &sevens, by_ends), longest, "{n} {repeats}");
            assert_eq!(granted(&flat, &sevens, 993), if by_ends < 993 { 2 } else { longest }, "{n} {repeats}");
            // The walk grants it and the ends do not.
            assert_eq!(bound(&falling, &zeros, longest), 1000, "{n} {repeats}");
            assert_eq!(granted(&falling, &zeros, 1000), longest, "{n} {repeats}");
            // Both do, at the same times.
            let last = walked(longest);
            assert_eq!(bound(&falling, &sevens, longest), last, "{n} {repeats}");
            let grants = [granted(&falling, &sevens, last), granted(&falling, &sevens, last + 1)];
            assert_eq!(grants, [longest, longest - 1], "{n} {repeats}");
        }
    });
}

/// At a level below the top, and where a coast could be longer, it is read at each position alone.
#[test]
fn other_coasts_of_a_body_are_read_once() {
    by_both(|calls, policy| {
        let body = Body { n: 20, levels: 2, cycle: 100, repeats: 1, policy };
        // The top level never fits.
        let summaries = [[0, 0, 0, 0], [0, 0, 200, 0]].concat().repeat(20);
        let worst = [7; 40];
        assert_eq!(calls.body_bound(body, &summaries, &worst, 0, 0, 16), Ok(100 - 7 * 15));
        assert_eq!(calls.body_bound(body, &summaries, &worst, 0, 1, 16), Ok(-100));
        assert_eq!(calls.body_bound(body, &summaries, &worst, 0, 1, 15), Ok(-100 - 7 * 14));
        assert_eq!(calls.body_bound(body, &summaries, &worst, 5, 1, 15), Ok(-100));
        assert_eq!(left_to_coast(calls, body, &summaries, &worst, 79), 3);
    });
}

/// On tables of anyone the least of a coast may be at its start: the bound is then that of every longer coast too, by its ends as well.
#[test]
fn bounds_of_a_body_never_rise() {
    by_both(|calls, policy| {
        // The third number by place: 9, 0, 5; V is what the worst times say.
        let (summaries, worst) = ([0, 0, 9, 3, 0, 0, 0, 2, 0, 0, 5, 1], [1, 1, 1]);
        let body = Body { n: 3, levels: 1, cycle: 20, repeats: 1, policy };
        let limits = [0, 1, 2].map(|position| calls.body_limit(body, &summaries, position, 0));
        assert_eq!(limits, [Ok(11), Ok(20), Ok(15)]);
        let bounds = [1, 2, 3].map(|length| calls.body_bound(body, &summaries, &worst, 0, 0, length));
        assert_eq!(bounds, [Ok(11); 3]);
        let bounds = [1, 2].map(|length| calls.body_bound(body, &summaries, &worst, 1, 0, length));
        assert_eq!(bounds, [Ok(20), Ok(14)]);
        // Late at 12: no length qualifies, though the limits after it are higher.
        let tables = BodyTables { order: &[2, 0, 1], summaries: &summaries, worst_by_position: &worst };
        let mut run = BodyRun { clock: 12, body, ..BodyRun::default() };
        let given = calls.body_ask(&mut run, &tables).expect("a turn");
        assert_eq!((given.action, given.level, given.late, run.left, run.late), (2, 0, true, 0, true));
        let mut run = BodyRun { clock: 11, body, ..BodyRun::default() };
        let given = calls.body_ask(&mut run, &tables).expect("a turn");
        assert_eq!((given.late, run.left, run.late), (false, 2, false));
    });
}

/// What the four numbers come to at a position, with two bodies after it, one and none: by 2005 the averages are a test of their own, of the last body too.
#[test]
fn a_body_by_each_policy() {
    on_all_sides(|calls| {
        for (policy, entry, limits) in [
            (POLICY_2008, [7, 2, 3, 0], [83, 90, 97]),
            (POLICY_2005, [7, 2, 3, 0], [79, 86, 93]),
            (POLICY_2008, [2, 7, 3, 0], [83, 90, 97]),
            (POLICY_2005, [2, 7, 3, 0], [83, 90, 97]),
            (POLICY_2008, [1, 1, 9, 0], [89, 90, 91]),
            (POLICY_2005, [1, 1, 9, 0], [89, 90, 91]),
            (POLICY_2008, [9, 0, 8, 0], [74, 83, 92]),
            (POLICY_2005, [9, 0, 8, 0], [73, 82, 91]),
        ] {
            let body = Body { n: 1, levels: 1, cycle: 100, repeats: 3, policy };
            let found = [0, 1, 2].map(|position| calls.body_limit(body, &entry, position, 0));
            assert_eq!(found, limits.map(Ok), "{policy} {entry:?}");
            // At a limit the level fits, and after it all is late.
            for (position, limit) in limits.into_iter().enumerate() {
                for (clock, late) in [(limit, false), (limit + 1, true)] {
                    let tables = BodyTables { order: &[0], summaries: &entry, worst_by_position: &[0] };
                    let (position, clock) = (position as u32, clock as u64);
                    let mut run = BodyRun { body, clock, position, ..BodyRun::default() };
                    assert_eq!(
                        calls.body_ask(&mut run, &tables).map(|given| given.late),
                        Ok(late),
                        "{policy} {entry:?}"
                    );
                }
            }
        }
    });
}

/// A level above that fits within a coast and at neither end keeps it short: of a body, into the next one too, and of a plain cycle.
#[test]
fn the_level_above_is_looked_for_at_each_position() {
    by_both(|calls, policy| {
        // Level 0 always fits; level 1 up to the limits.
        let (within, rising) = ([0, 15, 0, 5, 0, 15], [0, 5]);
        for (n, repeats, third, limits, lefts) in
            [(3, 1, &within[..], [5, 15, 5], [0, 0, 2, 2]), (1, 3, &rising[..], [11, 13, 15], [2, 1, 2, 2])]
        {
            let body = Body { n, levels: 2, cycle: 20, repeats, policy };
            let lowest = |third: u32| if repeats == 1 { 0 } else { third / 2 };
            let summaries: Vec<u32> = third.iter().flat_map(|&third| [0, lowest(third), third, 0]).collect();
            assert_eq!([0, 1, 2].map(|i| calls.body_limit(body, &summaries, i, 1)), limits.map(Ok));
            let left = |clock: u64| left_to_coast(calls, body, &summaries, &[0; 6][..2 * n as usize], clock);
            assert_eq!([10, 15, 16, 20].map(left), lefts, "{n} {repeats}");
        }
        let (limits, bounds) = ([20, 5, 20, 15, 20, 5], [20; 96]);
        let left = |clock: u32| {
            let run = Run { n: 3, levels: 2, clock, ..Run::default() };
            calls.ask(run, &[0; 3], &limits, &bounds).0.left
        };
        assert_eq!([10, 15, 16, 20].map(left), [0, 0, 2, 2]);
    });
}

/// Each field of the run record of a body at its last accepted value and one over, asked and reported; a refused start leaves zero actions.
#[test]
fn body_run_records() {
    on_all_sides(|calls| {
        let tables = BodyTables { order: &[0; 64], summaries: &[0; 2048], worst_by_position: &[0; 512] };
        let refused = |run: BodyRun| {
            let (mut asked, mut reported) = (run, run);
            let answer = calls.body_ask(&mut asked, &tables);
            let number = calls.body_report(&mut reported, run.clock as u32, &[0; 512]);
            assert!(answer.is_ok() || asked == run);
            assert!(number == 0 || reported == run);
            answer.err() == Some(refused::TURN) && number == 11
        };
        let of = |body: Body| BodyRun { body, ..BodyRun::default() };
        let body = Body { n: 20, levels: 3, cycle: 9, repeats: 5, policy: POLICY_2005 };
        let still = of(body);
        let runs = BodyRun { running: true, ..still };
        assert!(!refused(still) && !refused(runs));
        for (good, bad) in [
            (of(Body { n: 64, ..body }), of(Body { n: 65, ..body })),
            (of(Body { n: 1, ..body }), of(Body { n: 0, ..body })),
            (of(Body { levels: 8, ..body }), of(Body { levels: 9, ..body })),
            (of(Body { levels: 1, ..body }), of(Body { levels: 0, ..body })),
            (of(Body { cycle: LAST_CLOCK, ..body }), of(Body { cycle: LAST_CLOCK + 1, ..body })),
            (of(Body { cycle: 1, ..body }), of(Body { cycle: 0, ..body })),
            (of(Body { repeats: 1620, ..body }), of(Body { repeats: 1621, ..body })),
            (of(Body { repeats: 1, ..body }), of(Body { repeats: 0, ..body })),
            // So many that positions would be few in 32 bits.
            (of(body), of(Body { repeats: 1 << 30, ..body })),
            // A policy is not judged, whatever else is.
            (of(Body { policy: 2006, ..body }), of(Body { policy: 2006, cycle: 0, ..body })),
            (of(Body { policy: 0, ..body }), of(Body { policy: 0, repeats: 0, ..body })),
            (of(Body { policy: u32::MAX, ..body }), of(Body { policy: u32::MAX, n: 0, ..body })),
            (BodyRun { position: 100, ..still }, BodyRun { position: 101, ..still }),
            (BodyRun { position: 99, ..runs }, BodyRun { position: 100, ..runs }),
            (BodyRun { position: 99, ..runs }, BodyRun { position: u32::MAX, ..runs }),
            (BodyRun { clock: LAST_CLOCK.into(), ..still }, BodyRun { clock: u64::from(LAST_CLOCK) + 1, ..still }),
            (BodyRun { clock: 5, ..still }, BodyRun { clock: 1 << 32 | 5, ..still }),
            (BodyRun { level: 2, ..still }, BodyRun { level: 3, ..still }),
            (BodyRun { left: 15, ..still }, BodyRun { left: 16, ..still }),
            (BodyRun { left: 15, ..runs }, BodyRun { left: u8::MAX, ..runs }),
            (BodyRun { position: 98, left: 2, ..still }, BodyRun { position: 98, left: 3, ..still }),
            (BodyRun { position: 98, left: 1, ..runs }, BodyRun { position: 98, left: 2, ..runs }),
            (BodyRun { position: 45, decisions: 45, ..still }, BodyRun { position: 45, decisions: 46, ..still }),
            (BodyRun { position: 45, decisions: 46, ..runs }, BodyRun { position: 45, decisions: 47, ..runs }),
        ] {
            assert!(!refused(good), "{good:?}");
            assert!(refused(bad), "{bad:?}");
        }
        for (body, number) in [
            (Body { n: 0, repeats: 0, policy: 0, ..body }, 3),
            (Body { repeats: 1621, policy: 0, ..body }, 19),
            (Body { policy: 0, ..body }, 20),
            (Body { policy: 2006, ..body }, 20),
        ] {
            let mut run = runs;
            assert_eq!((calls.body_start(&mut run, body), run), (number, BodyRun::default()));
            assert!(refused(run));
        }
        let mut run = BodyRun { clock: u64::MAX, late: true, ..runs };
        assert_eq!((calls.body_start(&mut run, body), run), (0, still));
    });
}

/// The policy of a record is not judged: of 2005 it is that, and any other is read as 2008. It stays as it was.
#[test]
fn the_policy_of_a_record() {
    on_all_sides(|calls| {
        // At the last position 2008 takes off the third number alone, 2005 the average too; before it, 8 + 9 and 9 + 9.
        let tables = BodyTables { order: &[0], summaries: &[9, 0, 8, 50], worst_by_position: &[50] };
        for policy in [POLICY_2005, POLICY_2008, 0, 1, 2004, 2006, 2007, 2009, 1 << 16 | 2005, 1 << 31 | 2005, u32::MAX]
        {
            let body = Body { n: 1, levels: 1, cycle: 100, repeats: 2, policy };
            for (position, last) in [(0, [82, 83]), (1, [91, 92])] {
                let last = if policy == POLICY_2005 { last[0] } else { last[1] };
                for (clock, late) in [(last, false), (last + 1, true)] {
                    let before = BodyRun { body, position, clock, ..BodyRun::default() };
                    let mut run = before;
                    let given = Given { action: position, level: 0, decided: true, late };
                    assert_eq!(calls.body_ask(&mut run, &tables), Ok(given), "{before:?}");
                    assert_eq!(run, BodyRun { running: true, decisions: 1, late, ..before });
                    assert_eq!(calls.body_report(&mut run, clock as u32 + 7, &[50]), 0);
                    let ended = BodyRun { position: position + 1, clock: clock + 7, decisions: 1, late, ..before };
                    assert_eq!(run, ended);
                }
            }
        }
    });
}

/// The order of a run call's refusals: range, room, turn, finished, back, clock.
#[test]
fn refusals_of_a_body_run_in_order() {
    on_all_sides(|calls| {
        let ask = |mut run: BodyRun, rooms: [usize; 3]| {
            let (order, summaries, worst) = (&[0; 2][..rooms[0]], &[0; 8][..rooms[1]], &[0; 2][..rooms[2]]);
            let tables = BodyTables { order, summaries, worst_by_position: worst };
            common::number(calls.body_ask(&mut run, &tables))
        };
        let report = |mut run: BodyRun, clock: u32, room: usize| calls.body_report(&mut run, clock, &[0; 2][..room]);
        let body = Body { n: 2, levels: 1, cycle: 9, repeats: 3, policy: POLICY_2008 };
        let still = BodyRun { clock: 9, body, ..BodyRun::default() };
        let runs = BodyRun { running: true, ..still };
        let over = BodyRun { level: 1, ..runs };
        let done = BodyRun { position: 6, ..still };
        let whole = [2, 8, 2];
        for short in [[1, 8, 2], [2, 7, 2], [2, 8, 1]] {
            assert_eq!([ask(over, short), ask(runs, short), ask(done, short), ask(still, short)], [11, 17, 17, 17]);
        }
        assert_eq!([ask(runs, whole), ask(done, whole), ask(still, whole)], [11, 10, 0]);
        assert_eq!([report(over, 0, 1), report(still, 0, 1), report(still, 0, 2)], [11, 17, 11]);
        assert_eq!([report(runs, 8, 1), report(runs, 8, 2), report(runs, LAST_CLOCK + 1, 2)], [17, 12, 13]);
        assert_eq!([report(runs, 9, 2), report(runs, LAST_CLOCK, 2)], [0, 0]);
    });
}

/// The longest frame: 64 actions 1,620 times, each too long, so that each is decided, and late. Its end needs 41 bits. By the definitions alone it
/// would take long.
#[test]
fn the_longest_body() {
    let sides = common::sides();
    let sides = sides.iter().filter(|(name, _)| *name != "reference");
    for ((name, calls), policy) in sides.flat_map(|side| common::POLICIES.map(|policy| (side, policy))) {
        println!("{name} by {policy}");
        let mut sketch = full(vec![0; 64], 0, 1, 64 * MOST_REPEATS);
        (sketch.levels, sketch.averages, sketch.worst) = (1, vec![0; 64], vec![1; 64]);
        let positions = 64 * MOST_REPEATS as usize;
        let (mut order, mut given, mut marks) = (vec![9; 65], vec![9; positions + 1], vec![9; positions + 1]);
        let mut frame = |durations: &[u32]| {
            let (image, repeats) = (sketch.image(), MOST_REPEATS);
            let answer = calls.body_dry_frame(&image, repeats, policy, durations, &mut order, &mut given, &mut marks);
            assert_eq!((given[positions], marks[positions], order[64]), (9, 9, 9));
            (answer, marks[..positions].iter().filter(|&&mark| mark == 1).count())
        };
        let end = 103_680 * u64::from(LONGEST_TIME);
        let dried = BodyDried { decisions: 103_680, end, positions: 103_680, overrun: true, late: true };
        assert_eq!(frame(&vec![LONGEST_TIME; positions]), (Ok(dried), positions));
        // Within worst: sixteen at a time.
        let dried = BodyDried { decisions: 6480, end: 103_680, positions: 103_680, overrun: false, late: false };
        assert_eq!(frame(&vec![1; positions]), (Ok(dried), 6480));
        assert_eq!(frame(&vec![1; positions - 1]).0, Err(refused::ROOM));
    }
}
