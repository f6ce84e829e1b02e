//! Laws of the rules that follow from its definitions, on drawn inputs; those of recordings of the product too.

mod common;

use common::{plan, Plan};
use nyokazerubi_host::calls::{refused, Answer, Calls, Counts, Dried, Line, Reading, Reference, Totals, LAST_CLOCK};
use nyokazerubi_host::draw::{big_endian, Draw, Size, PACES};
use nyokazerubi_host::product::Product;
use nyokazerubi_host::reference::{accept, Planned, Policy};

const SIZES: [Size; 4] = [Size::Tiny, Size::Small, Size::Large, Size::Extreme];

/// Accepted images of all sizes, most of them small.
fn accepted(draw: &mut Draw, count: usize) -> Vec<Vec<u8>> {
    let mut images = Vec::new();
    while images.len() < count {
        let size = if draw.once_in(6) { draw.pick(&SIZES) } else { Size::Small };
        let image = draw.image(size);
        if accept(&image).is_ok() {
            images.push(image);
        }
    }
    images
}

/// Reading and writing undo each other on what they accept.
#[test]
fn reading_and_writing_undo_each_other() {
    let mut draw = Draw::new(11);
    for image in accepted(&mut draw, 500) {
        let (mut masks, mut deadlines) = ([0; 64], [0; 64]);
        let (mut averages, mut worst) = ([0; 512], [0; 512]);
        let counts = Reference.read(&image, &mut masks, &mut deadlines, &mut averages, &mut worst).expect("accepted");
        let mut again = vec![0; image.len()];
        let written = Reference.write(counts, &masks, &deadlines, &averages, &worst, &mut again);
        assert_eq!((written, &again), (Ok(image.len()), &image));
    }
    let mut back = 0;
    for _ in 0..2000 {
        let sketch = draw.writing(Size::Small);
        let counts = Counts { n: sketch.n as usize, levels: sketch.levels as usize, cycle: sketch.cycle };
        let mut image = [0; 4000];
        let written =
            Reference.write(counts, &sketch.masks, &sketch.deadlines, &sketch.averages, &sketch.worst, &mut image);
        let Ok(bytes) = written else { continue };
        let (mut masks, mut deadlines) = (sketch.masks.clone(), sketch.deadlines.clone());
        let (mut averages, mut worst) = (sketch.averages.clone(), sketch.worst.clone());
        let read = Reference.read(&image[..bytes], &mut masks, &mut deadlines, &mut averages, &mut worst);
        assert_eq!(read, Ok(counts));
        assert_eq!((masks, deadlines), (sketch.masks, sketch.deadlines));
        assert_eq!((averages, worst), (sketch.averages, sketch.worst));
        back += 1;
    }
    assert!(back > 500);
}

/// Where there is room, the ratio is at most 1 exactly if t is at most deadline(k) - mixed(i,k,q).
#[test]
fn the_ratio_tells_whether_time_is_left() {
    let mut draw = Draw::new(12);
    let (mut under, mut over) = (0, 0);
    for image in accepted(&mut draw, 400) {
        let planned = Planned::of(&accept(&image).expect("accepted"));
        for _ in 0..20 {
            let k = draw.index(planned.n);
            let (i, q) = (draw.index(k + 1), draw.index(planned.levels));
            let last = planned.deadline[k] - planned.mixed(i, k, q);
            let near = last + i64::from(draw.between(0, 4)) - 2;
            let time =
                if draw.once_in(3) { draw.between(0, LAST_CLOCK).into() } else { near.clamp(0, LAST_CLOCK.into()) };
            if let Reading::Ratio(ratio) = Reference.speed_reading(&image, i, k, q, time as u32) {
                assert_eq!(ratio <= 1.0, time <= last);
                *(if ratio <= 1.0 { &mut under } else { &mut over }) += 1;
            }
        }
    }
    assert!(under > 500 && over > 500, "{under} {over}");
}

/// Unfit exactly if the limit of level 0 at the start is below 0; limits never rise with the level.
#[test]
fn limits_of_level_0() {
    let mut draw = Draw::new(13);
    let (mut fit, mut unfit) = (0, 0);
    for _ in 0..2000 {
        let sketch = draw.profile(Size::Small);
        let profile = common::profile(&sketch);
        let planned = Planned::of(&profile);
        for policy in Policy::BOTH {
            let limits = planned.limits(policy);
            assert!(limits.iter().all(|row| row.windows(2).all(|pair| pair[1] <= pair[0])));
            assert_eq!(limits[0][0] < 0, profile.refusal() == Some(refused::UNFIT));
            *(if limits[0][0] < 0 { &mut unfit } else { &mut fit }) += 1;
        }
    }
    assert!(fit > 100 && unfit > 100);
}

/// By 2005 a level fits exactly if its average sums and its safe sums each meet every deadline to come; by 2008 their mixed ones do. So no limit of
/// 2005 is lower, and at level 0 they are the same. Along the order those of 2008 never fall, those of 2005 may.
#[test]
fn two_tests_apart() {
    let mut draw = Draw::new(17);
    let (mut higher, mut falls) = (0, 0);
    for image in accepted(&mut draw, 400) {
        let planned = Planned::of(&accept(&image).expect("accepted"));
        for calls in [&Reference as &dyn Calls, &Product] {
            let [mixed, apart] = common::POLICIES.map(|policy| plan(calls, &image, policy));
            assert_eq!((&mixed.order, &mixed.worst), (&apart.order, &apart.worst));
            for cell in 0..planned.n * planned.levels {
                let (i, q) = (cell / planned.levels, cell % planned.levels);
                let meets =
                    |t: i64, sum: &dyn Fn(usize) -> i64| (i..planned.n).all(|k| t + sum(k) <= planned.deadline[k]);
                let fits = |t: i64| meets(t, &|k| planned.average(i, k, q)) && meets(t, &|k| planned.safe(i, k, q));
                let limit = i64::from(apart.limits[cell]);
                assert_eq!([fits(limit), fits(limit + 1)], [true, false], "{i} {q}");
                let limit = i64::from(mixed.limits[cell]);
                let mixes = |t: i64| meets(t, &|k| planned.mixed(i, k, q));
                assert_eq!([mixes(limit), mixes(limit + 1)], [true, false], "{i} {q}");
                assert!(
                    mixed.limits[cell] <= apart.limits[cell] && (q > 0 || mixed.limits[cell] == apart.limits[cell])
                );
                higher += usize::from(mixed.limits[cell] < apart.limits[cell]);
                if let Some(after) = mixed.limits.get(cell + planned.levels) {
                    assert!(mixed.limits[cell] <= *after);
                    falls += usize::from(apart.limits[cell] > apart.limits[cell + planned.levels]);
                }
            }
        }
    }
    println!("{higher} limits higher than those of 2008, {falls} above the next");
    assert!(higher > 1000 && falls > 100, "{higher} {falls}");
}

/// A refreshed image is accepted, and differs in averages only.
#[test]
fn refreshed_images() {
    let mut draw = Draw::new(14);
    let mut changed = 0;
    for image in accepted(&mut draw, 500) {
        let old = accept(&image).expect("accepted");
        let worst: Vec<u32> = old.worst.iter().flatten().map(|&time| time as u32).collect();
        let trace = draw.trace(old.n, old.levels, &worst);
        let mut fresh = vec![0; image.len()];
        if Reference.refresh(&image, &trace, &mut fresh).is_ok() {
            let mut new = accept(&fresh).expect("accepted");
            changed += usize::from(new.averages != old.averages);
            new.averages = old.averages.clone();
            assert_eq!(new, old);
        }
    }
    assert!(changed > 50);
}

/// The durations of drawn frames: within worst, over it, or with an entry that is refused.
fn drawn_frames(draw: &mut Draw, plan: &Plan, count: usize) -> Vec<Vec<u32>> {
    let frame = |_| {
        let pace = draw.pick(&PACES);
        draw.durations(&plan.worst, pace)
    };
    (0..count).map(frame).collect()
}

/// The lines of frames one after another, counted in the totals.
fn lines(calls: &dyn Calls, plan: &Plan, totals: &mut Totals, frames: &[Vec<u32>]) -> Vec<Answer<Line>> {
    let Counts { n, levels, .. } = plan.counts;
    frames.iter().map(|frame| calls.rehearse(totals, n, levels, plan.tables(), &big_endian(frame))).collect()
}

fn sum(one: Totals, other: Totals) -> Totals {
    Totals {
        frames: one.frames + other.frames,
        decisions: one.decisions + other.decisions,
        overruns: one.overruns + other.overruns,
        lates: one.lates + other.lates,
    }
}

/// Two recordings one after another have the lines of both, and their totals added up.
#[test]
fn totals_of_two_recordings_add_up() {
    let mut draw = Draw::new(15);
    let mut all = Totals::default();
    for image in accepted(&mut draw, 300) {
        let plan = plan(&Reference, &image, draw.policy());
        let counts = [draw.index(12), draw.index(12)];
        let [first, second] = counts.map(|count| drawn_frames(&mut draw, &plan, count));
        for calls in [&Reference as &dyn Calls, &Product] {
            let [mut one, mut other, mut both] = [Totals::default(); 3];
            let apart = [lines(calls, &plan, &mut one, &first), lines(calls, &plan, &mut other, &second)].concat();
            let together = lines(calls, &plan, &mut both, &[first.clone(), second.clone()].concat());
            assert_eq!(together, apart);
            assert_eq!(both, sum(one, other));
            all = sum(all, both);
        }
    }
    println!("{all:?}");
    assert!(all.overruns > 100 && all.lates > 100 && all.frames > all.overruns + all.lates, "{all:?}");
}

/// A line is what the dry run over the frame's durations answers, with the lowest of all levels given, those of a coast too; where nothing overran,
/// every deadline was met.
#[test]
fn a_line_is_a_dry_run() {
    let mut draw = Draw::new(16);
    let (mut in_time, mut coasted) = (0, 0);
    for image in accepted(&mut draw, 400) {
        let plan = plan(&Reference, &image, draw.policy());
        let Counts { n, levels, .. } = plan.counts;
        let deadlines = Planned::of(&accept(&image).expect("accepted")).deadline;
        for durations in drawn_frames(&mut draw, &plan, 12) {
            for calls in [&Reference as &dyn Calls, &Product] {
                let (mut given, mut marks) = (vec![9; n], vec![9; n]);
                let cycle = calls.dry_run(n, levels, plan.tables(), &durations, &mut given, &mut marks);
                let line = lines(calls, &plan, &mut Totals::default(), std::slice::from_ref(&durations))[0];
                let lowest = u32::from(*given.iter().min().expect("an action"));
                let wanted = |Dried { decisions, end, overrun, late }| Line { decisions, lowest, end, overrun, late };
                assert_eq!(line, cycle.map(wanted));
                let Ok(Line { overrun: false, late, .. }) = line else { continue };
                let mut clock = 0;
                for i in 0..n {
                    clock += i64::from(durations[i * levels + given[i] as usize]);
                    assert!(clock <= deadlines[i] && !late, "position {i} of {durations:?}");
                }
                in_time += 1;
                coasted += marks.iter().filter(|&&mark| mark == 0).count();
            }
        }
    }
    println!("{in_time} frames without an overrun, {coasted} actions coasted");
    assert!(in_time > 1000 && coasted > 1000, "{in_time} {coasted}");
}
