//! A body repeated: all sides against the unrolled profile, whose order, limits, coast bounds and cycles are those of any profile; repeated once it
//! is the plain cycle; summaries join. By both policies.

mod common;

use common::body_plan;
use nyokazerubi_host::calls::{
    refused, BodyDried, BodyRun, BodyTables, Calls, Counts, Dried, ABSENT_BOUND, ABSENT_LONG, LONGEST_COAST,
    POLICY_2008,
};
use nyokazerubi_host::draw::{Draw, Pace, Size, PACES};
use nyokazerubi_host::reference::{
    accept_but_unfit, asked, Limits, Longest, Planned, Policy, Profile, Summary, Sums, Unrolled,
};
use nyokazerubi_host::text::BodyPlan;

/// Accepted bodies of few positions, with what they are unrolled.
fn accepted(draw: &mut Draw, count: usize, most: usize) -> Vec<(Vec<u8>, u32, Profile)> {
    let mut bodies = Vec::new();
    while bodies.len() < count {
        let size = draw.pick(&[Size::Tiny, Size::Tiny, Size::Small]);
        let repeats = draw.between(1, 12);
        let image = draw.body_image(size, repeats);
        let Ok(profile) = accept_but_unfit(&image) else { continue };
        let few = profile.n * repeats as usize <= most;
        if few && BodyPlan::of(&nyokazerubi_host::calls::Reference, &image, repeats, POLICY_2008).is_ok() {
            bodies.push((image, repeats, profile));
        }
    }
    bodies
}

/// Order, limits and coast bounds.
fn plan_is_unrolled(calls: &dyn Calls, plan: &BodyPlan, unrolled: &Unrolled) {
    let (positions, levels) = (unrolled.positions(), unrolled.levels());
    assert_eq!(plan.positions(), positions);
    let actions: Vec<usize> = (0..positions).map(|position| plan.action(position)).collect();
    assert_eq!(actions, unrolled.planned.order);
    for (position, level) in (0..positions).flat_map(|position| (0..levels).map(move |level| (position, level))) {
        let limit = calls.body_limit(plan.body, &plan.summaries, position, level);
        assert_eq!(limit, Ok(unrolled.limit(position, level)), "limit {position} {level}");
        for length in 1..=LONGEST_COAST {
            let bound = plan.bound(calls, position, level, length);
            assert_eq!(bound, unrolled.coast_bound(position, level, length), "bound {position} {level} {length}");
        }
    }
    // The longest coast has one bound, read at each position or by its ends.
    for position in 0..positions {
        let Longest { length, each, ends } = Longest::of(plan.body, &plan.summaries, &plan.worst, position);
        let bound = unrolled.coast_bound(position, levels - 1, length);
        assert_eq!([each, ends], [bound; 2], "the longest at {position}");
    }
}

/// A cycle by turns: the levels given, the decided marks, and how it ends.
fn by_turns(calls: &dyn Calls, plan: &BodyPlan, durations: &[u32]) -> (BodyDried, Vec<u8>, Vec<u8>) {
    let tables = BodyTables { order: &plan.order, summaries: &plan.summaries, worst_by_position: &plan.worst };
    let mut run = BodyRun::default();
    assert_eq!(calls.body_start(&mut run, plan.body), 0);
    let (mut levels, mut marks) = (Vec::new(), Vec::new());
    for position in 0..plan.positions() {
        let given = calls.body_ask(&mut run, &tables).expect("a turn");
        assert_eq!(given.action as usize, plan.action(position));
        levels.push(given.level as u8);
        marks.push(u8::from(given.decided));
        let end = run.clock as u32 + durations[position * plan.body.levels as usize + given.level as usize];
        assert_eq!(calls.body_report(&mut run, end, &plan.worst), 0);
    }
    assert_eq!(calls.body_ask(&mut run, &tables), Err(refused::FINISHED));
    let BodyRun { clock, position, decisions, overrun, late, .. } = run;
    (BodyDried { decisions, end: clock, positions: position, overrun, late }, levels, marks)
}

/// The dry run and the cycle by turns.
fn cycle_is_unrolled(calls: &dyn Calls, image: &[u8], plan: &BodyPlan, unrolled: &Unrolled, durations: &[u32]) {
    let wanted = unrolled.cycle(durations);
    let positions = plan.positions();
    let (mut order, mut given, mut marks) = (vec![0; plan.body.n as usize], vec![9; positions], vec![9; positions]);
    let (repeats, policy) = (plan.body.repeats, plan.body.policy);
    let dried = calls.body_dry_frame(image, repeats, policy, durations, &mut order, &mut given, &mut marks);
    assert_eq!((dried, given, marks), (Ok(wanted.0), wanted.1.clone(), wanted.2.clone()));
    assert_eq!(order, plan.order[..order.len()]);
    assert_eq!(by_turns(calls, plan, durations), wanted);
}

#[test]
fn unrolled() {
    let mut draw = Draw::new(21);
    let (bodies, sides) = (accepted(&mut draw, 250, 40), common::sides());
    for policy in Policy::BOTH {
        let (mut coasted, mut overrun, mut late, mut falls) = (0, 0, 0, 0);
        for (image, repeats, profile) in &bodies {
            let unrolled = Unrolled::of(profile, *repeats as usize, policy);
            let worst: Vec<u32> = unrolled.planned.worst.iter().flatten().map(|&time| time as u32).collect();
            let cycles: Vec<Vec<u32>> =
                PACES.iter().filter(|&&pace| pace != Pace::Absent).map(|&pace| draw.durations(&worst, pace)).collect();
            for (_, calls) in &sides {
                let plan = body_plan(&**calls, image, *repeats, policy.year());
                assert_eq!(plan.body.policy, policy.year());
                plan_is_unrolled(&**calls, &plan, &unrolled);
                for durations in &cycles {
                    cycle_is_unrolled(&**calls, image, &plan, &unrolled, durations);
                }
            }
            for durations in &cycles {
                let (cycle, given, marks) = unrolled.cycle(durations);
                coasted += marks.iter().filter(|&&mark| mark == 0).count();
                overrun += usize::from(cycle.overrun);
                late += usize::from(cycle.late);
                if !cycle.overrun {
                    demand_three(&unrolled, durations, &given, cycle);
                }
            }
            let fall = |i: usize| (0..unrolled.levels()).any(|q| unrolled.limit(i + 1, q) < unrolled.limit(i, q));
            falls += usize::from((0..unrolled.positions() - 1).any(fall));
        }
        println!(
            "{}: {} bodies, {coasted} actions coasted, {overrun} overrun, {late} late, limits fall in {falls}",
            policy.year(),
            bodies.len()
        );
        assert!(coasted > 3000 && overrun > 100 && late > 10);
        assert!(if policy == Policy::Mixed { falls == 0 } else { falls > 20 });
    }
}

/// Within worst no deadline is missed, nothing is late, and every level is that of the manager asked before the action.
fn demand_three(unrolled: &Unrolled, durations: &[u32], given: &[u8], cycle: BodyDried) {
    let mut clock = 0;
    for (i, &level) in given.iter().enumerate() {
        assert_eq!(asked(unrolled, i, clock), (level as usize, false), "position {i}");
        clock += i64::from(durations[i * unrolled.levels() + level as usize]);
        assert!(clock <= unrolled.planned.deadline[i], "position {i}");
    }
    assert!(!cycle.late && cycle.end == clock as u64);
}

/// 9 exactly if every permitted order of the unrolled profile misses a deadline.
#[test]
fn unfit_by_every_order() {
    let mut draw = Draw::new(22);
    let (mut fit, mut unfit) = (0, 0);
    let sides = common::sides();
    while fit < 200 || unfit < 200 {
        let repeats = draw.between(1, 3);
        let image = draw.body_image(Size::Tiny, repeats);
        let Ok(profile) = accept_but_unfit(&image) else { continue };
        let own = profile.deadlines.iter().any(|&deadline| deadline != 0 && deadline != profile.cycle);
        if own || profile.n * repeats as usize > 6 {
            continue;
        }
        let misses = Unrolled::every_order(&profile, repeats as usize).into_iter().all(|misses| misses);
        for (name, calls) in &sides {
            let refusals = common::POLICIES.map(|policy| BodyPlan::of(&**calls, &image, repeats, policy).err());
            assert_eq!(refusals, [misses.then_some(refused::UNFIT); 2], "{name}: {profile:?} {repeats} times");
        }
        *(if misses { &mut unfit } else { &mut fit }) += 1;
    }
}

/// Repeated once, a body has the order, limits, coast bounds and dry runs of the plain plan.
#[test]
fn once_is_the_plain_cycle() {
    let mut draw = Draw::new(23);
    let mut trials = 0;
    let sides = common::sides();
    while trials < 300 {
        let size = draw.pick(&[Size::Tiny, Size::Small, Size::Small, Size::Large, Size::Extreme]);
        let image = draw.body_image(size, 1);
        if BodyPlan::of(&nyokazerubi_host::calls::Fast, &image, 1, POLICY_2008).is_err() {
            continue;
        }
        trials += 1;
        let pace = draw.pick(&[Pace::Zero, Pace::Within, Pace::Worst, Pace::Over]);
        let both = sides.iter().flat_map(|(_, calls)| common::POLICIES.map(|policy| (calls, policy)));
        for (calls, policy) in both {
            let calls = &**calls;
            let (plan, body) = (common::plan(calls, &image, policy), body_plan(calls, &image, 1, policy));
            let Counts { n, levels, cycle } = plan.counts;
            assert_eq!((body.body.n as usize, body.body.levels as usize, body.body.cycle), (n, levels, cycle));
            assert_eq!((&body.order[..n], &body.worst[..n * levels]), (&plan.order[..], &plan.worst[..]));
            for cell in 0..n * levels {
                let limit = calls.body_limit(body.body, &body.summaries, cell / levels, cell % levels);
                assert_eq!(limit, Ok(i64::from(plan.limits[cell])));
                for length in 1..=LONGEST_COAST {
                    let plain = plan.bounds[cell * LONGEST_COAST + length - 1];
                    let wanted = if plain == ABSENT_BOUND { ABSENT_LONG } else { plain.into() };
                    assert_eq!(body.bound(calls, cell / levels, cell % levels, length), wanted);
                }
            }
            let durations = draw.durations(&plan.worst, pace);
            let mut plain = (vec![9; n], vec![9; n]);
            let dried = calls.dry_run(n, levels, plan.tables(), &durations, &mut plain.0, &mut plain.1);
            let mut ours = (vec![9; n], vec![9; n], vec![9; n]);
            let framed = calls.body_dry_frame(&image, 1, policy, &durations, &mut ours.2, &mut ours.0, &mut ours.1);
            let wanted = |Dried { decisions, end, overrun, late }| BodyDried {
                decisions,
                end: end.into(),
                positions: n as u32,
                overrun,
                late,
            };
            assert_eq!(framed, dried.map(wanted));
            assert_eq!(ours, (plain.0, plain.1, plan.order.clone()));
        }
    }
}

/// A stretch is the join of its parts; joining is associative, with the empty stretch neutral; equal bodies are those joined one by one.
#[test]
fn summaries_join() {
    for policy in Policy::BOTH {
        join(policy);
    }
}

fn join(policy: Policy) {
    let mut draw = Draw::new(24);
    for (_, _, profile) in accepted(&mut draw, 200, 60) {
        let planned = Planned::of(&profile);
        let stretch = |i: usize, k: usize, q: usize| Sums::stretch(&planned, policy, i, k, q);
        for q in 0..planned.levels {
            for (i, k) in (0..planned.n).flat_map(|i| (i..planned.n).map(move |k| (i, k))) {
                for cut in i..k {
                    assert_eq!(stretch(i, cut, q).joined(stretch(cut + 1, k, q), policy), stretch(i, k, q));
                }
            }
            // To the end it is what a limit takes off the cycle.
            for i in 0..planned.n {
                let limit = profile.cycle - stretch(i, planned.n - 1, q).taken(policy);
                assert_eq!(limit, planned.limit(policy, i, q));
            }
        }
    }
    let sums = |draw: &mut Draw| {
        let mut word = || i64::from(draw.word() as u32 >> draw.between(0, 31));
        Sums { average: word(), lowest: word(), third: word(), worst: word() }
    };
    for _ in 0..2000 {
        let drawn = sums(&mut draw);
        let [a, b, c] = [0; 3].map(|_| {
            let drawn = sums(&mut draw);
            if draw.once_in(5) {
                Summary::Empty
            } else {
                Summary::Of(drawn)
            }
        });
        assert_eq!(a.join(b, policy).join(c, policy), a.join(b.join(c, policy), policy));
        assert_eq!((a.join(Summary::Empty, policy), Summary::Empty.join(a, policy)), (a, a));
        let mut joined = Summary::Empty;
        for many in 0..12 {
            assert_eq!(drawn.bodies(many, policy), joined);
            joined = joined.join(Summary::Of(drawn), policy);
        }
    }
}
