//! The rules' worked values.

mod common;

use common::plan;
use nyokazerubi_host::boundary::{Fault, Line, Opened, Refusal, Run, Totals, BOUNDARY};
use nyokazerubi_host::calls::{refused, Calls, Counts, Reading, POLICY_2005, POLICY_2008};
use nyokazerubi_host::product::Product;
use nyokazerubi_host::text;
use std::fs;
use std::mem::size_of;
use std::path::Path;

/// Durations four bytes each, every position's at both levels.
fn twice<const N: usize>(durations: [u32; N]) -> Vec<u8> {
    durations.iter().flat_map(|duration| [duration.to_be_bytes(); 2]).flatten().collect()
}

fn dry(calls: &dyn Calls, durations: [u32; 3]) -> String {
    text::dry_run(calls, &common::three(20), POLICY_2008, &twice(durations))
}

fn three(calls: &dyn Calls) {
    let image = common::three(20);
    assert_eq!(image[..6], [0x10, 0x64, 0x00, 0x00, 0x00, 0xa0]);
    assert_eq!(image.len(), 78);
    assert_eq!(text::plan(calls, &image, POLICY_2008), "3 2 20\n0 0 8 0\n1 1 12 6\n2 2 16 12\n");

    // Cases 1 to 3.
    assert_eq!(dry(calls, [6, 8, 4]), "0 0 1 1\n1 1 1 1\n2 2 0 1\n3 18 0 0\n");
    assert_eq!(dry(calls, [0, 8, 8]), "0 0 1 1\n1 1 1 1\n2 2 1 0\n2 16 0 0\n");
    assert_eq!(dry(calls, [8, 4, 8]), "0 0 1 1\n1 1 0 1\n2 2 1 1\n3 20 0 0\n");

    // The same as a recording; each of its frames begins at time 0.
    let recording = [twice([6, 8, 4]), twice([0, 8, 8]), twice([8, 4, 8])].concat();
    assert_eq!(text::rehearse(calls, &image, POLICY_2008, &recording), "3 0 18 0 0\n2 1 16 0 0\n3 0 20 0 0\n3 8 0 0\n");
    assert_eq!(text::rehearse(calls, &image, POLICY_2008, &[]), "0 0 0 0\n");
    assert_eq!(text::rehearse(calls, &image, POLICY_2008, &recording[1..]), "refused 14\n");

    // Cases 4 and 5: position 1 at a time.
    let plan = plan(calls, &image, POLICY_2008);
    for (time, level, late) in [(6, 1, false), (7, 0, false), (12, 0, false), (13, 0, true)] {
        let (start, _) = calls.start(3, 2);
        let (first, _) = calls.ask(start, &plan.order, &plan.limits, &plan.bounds);
        let (ended, number) = calls.report(first, time, &plan.worst);
        assert_eq!(number, 0);
        let (_, answer) = calls.ask(ended, &plan.order, &plan.limits, &plan.bounds);
        let answer = answer.expect("a turn");
        assert_eq!((answer.level, answer.late), (level, late), "time {time}");
    }

    // Case 6.
    assert_eq!(calls.speed_reading(&image, 0, 2, 1, 0), Reading::Ratio(1.0));
    assert_eq!(calls.speed_reading(&image, 0, 2, 1, 18), Reading::Spent);

    // Case 7.
    assert_eq!(calls.check(&common::three(12)), Ok(Counts { n: 3, levels: 2, cycle: 12 }));
    assert_eq!(calls.check(&common::three(11)), Err(refused::UNFIT));
}

/// Case 8.
fn order(calls: &dyn Calls) {
    assert_eq!(plan(calls, &common::case_8(), POLICY_2008).order, [0, 2, 1]);
}

fn encoder(calls: &dyn Calls) {
    let plan = plan(calls, &common::encoder(), POLICY_2008);
    assert_eq!(plan.counts, Counts { n: 9, levels: 8, cycle: 320_000 });
    assert_eq!(plan.order, [0, 1, 2, 3, 4, 5, 6, 7, 8]);
    assert_eq!(plan.limits[8..11], [168_000, 69_000, -31_000]);
}

/// Coast bounds of Three by hand, and those that reach past the end.
fn bounds(calls: &dyn Calls) {
    let plan = plan(calls, &common::three(20), POLICY_2008);
    let bound = |i: usize, q: usize, r: usize| plan.bounds[(i * 2 + q) * 16 + r - 1];
    assert_eq!([bound(0, 0, 1), bound(0, 0, 2), bound(0, 0, 3)], [8, 8, 8]);
    assert_eq!([bound(0, 1, 1), bound(0, 1, 2), bound(0, 1, 3)], [0, -2, -4]);
    assert_eq!([bound(1, 1, 1), bound(1, 1, 2), bound(2, 1, 1)], [6, 4, 12]);
    for (i, least) in [(0, 4), (1, 3), (2, 2)] {
        assert!((least..=16).all(|r| (0..2).all(|q| bound(i, q, r) == i32::MIN)));
    }
}

/// A refused start, and calls on its record.
fn refused_start(calls: &dyn Calls) {
    for (n, levels) in
        [(0, 1), (65, 1), (1, 0), (1, 9), (usize::MAX, usize::MAX), (1, (1 << 32) + 1), ((1 << 32) + 1, 1)]
    {
        let (run, number) = calls.start(n, levels);
        assert_eq!((run.n, number), (0, 3));
        assert_eq!(calls.ask(run, &[0; 64], &[0; 512], &[0; 8192]), (run, Err(refused::TURN)));
        assert_eq!(calls.report(run, 0, &[0; 512]), (run, 11));
    }
}

/// Three twice, by hand: twelve units a repeat at level 0, and of the limits those of the second repeat are Three's own in a cycle of 40.
fn twice_three(calls: &dyn Calls) {
    let image = common::three(40);
    let wanted = "3 2 40 2\n0 0 16 2\n1 1 20 8\n2 2 24 14\n3 3 28 20\n4 4 32 26\n5 5 36 32\n";
    assert_eq!(text::repeat_plan(calls, &image, 2, POLICY_2008), wanted);
    assert_eq!(text::repeat_plan(calls, &common::three(23), 2, POLICY_2008), "refused 9\n");
    assert_eq!(text::repeat_plan(calls, &image, 0, POLICY_2008), "refused 19\n");
    assert_eq!(text::repeat_plan(calls, &common::case_8(), 1, POLICY_2008), "refused 19\n");
    // The encoder's own plan, once; its image 1,620 times in its cycle is unfit.
    let once = text::repeat_plan(calls, &common::encoder(), 1, POLICY_2008);
    let plain = text::plan(calls, &common::encoder(), POLICY_2008);
    assert_eq!(once.split_once('\n').expect("lines").1, plain.split_once('\n').expect("lines").1);
    assert_eq!(text::repeat_plan(calls, &common::encoder(), 2, POLICY_2008), "refused 9\n");
}

/// By the policy of 2005: a chain whose limits fall along the order, Three, and Three twice by hand.
fn policy_of_2005(calls: &dyn Calls) {
    let image = common::falling();
    assert_eq!(text::plan(calls, &image, POLICY_2005), "4 2 20\n0 0 6 0\n1 1 14 4\n2 2 16 14\n3 3 18 6\n");
    let dry = |durations: [u32; 4]| text::dry_run(calls, &image, POLICY_2005, &twice(durations));
    // From position 1 on, at time 8, a coast tested at its ends alone would hold level 0 over position 2, where level 1 fits.
    assert_eq!(dry([8, 2, 3, 2]), "0 0 1 1\n1 1 0 1\n2 2 1 1\n3 3 0 1\n4 15 0 0\n");
    assert_eq!(text::plan(calls, &image, POLICY_2008), "4 2 20\n0 0 6 -10\n1 1 14 -2\n2 2 16 4\n3 3 18 6\n");
    let mixed = text::dry_run(calls, &image, POLICY_2008, &twice([8, 2, 2, 2]));
    assert_eq!(mixed, "0 0 0 1\n1 1 0 0\n2 2 0 1\n3 3 0 0\n2 14 0 0\n");

    let three = common::three(20);
    assert_eq!(text::plan(calls, &three, POLICY_2005), "3 2 20\n0 0 8 2\n1 1 12 8\n2 2 16 12\n");
    let dried = text::dry_run(calls, &three, POLICY_2005, &twice([6, 8, 4]));
    assert_eq!(dried, "0 0 1 1\n1 1 1 0\n2 2 0 1\n2 18 0 0\n");
    let recording = [twice([6, 8, 4]), twice([8, 4, 8])].concat();
    assert_eq!(text::rehearse(calls, &three, POLICY_2005, &recording), "2 0 18 0 0\n2 1 20 0 0\n2 4 0 0\n");

    // At level 1 the averages of all to come, up to 36, or 8 and 4 for each after it, whichever is more.
    let wanted = "3 2 40 2\n0 0 16 4\n1 1 20 10\n2 2 24 16\n3 3 28 22\n4 4 32 28\n5 5 36 32\n";
    assert_eq!(text::repeat_plan(calls, &common::three(40), 2, POLICY_2005), wanted);

    for year in [0, 2004, 2006, 2007, 2009, u32::MAX] {
        assert_eq!(text::plan(calls, &three, year), "refused 20\n");
        assert_eq!(text::dry_run(calls, &three, year, &[]), "refused 20\n");
        assert_eq!(text::rehearse(calls, &three, year, &[0]), "refused 20\n");
        assert_eq!(text::repeat_plan(calls, &three, 1, year), "refused 20\n");
        assert_eq!(text::plan(calls, &common::three(11), year), "refused 9\n");
        assert_eq!(text::repeat_plan(calls, &three, 0, year), "refused 19\n");
    }
}

/// The archive is of the boundary that the header declares.
#[test]
fn boundary_of_the_product() {
    assert_eq!(Product.boundary(), BOUNDARY);
    assert_eq!((size_of::<Run>(), size_of::<Refusal>(), size_of::<Fault>()), (32, 4, 8));
    assert_eq!((size_of::<Opened>(), size_of::<Totals>(), size_of::<Line>()), (40, 16, 20));
}

/// The files to try the programs on: the product's encoder with its averages as durations, and Three with the durations of case 1.
#[test]
fn examples() {
    let file = |name: &str| {
        let path = Path::new(env!("CARGO_MANIFEST_DIR")).join("../examples").join(name);
        fs::read(&path).unwrap_or_else(|error| panic!("{}: {error}", path.display()))
    };
    let mut image = vec![0; 546];
    assert_eq!(Product.write_encoder(&mut image), Ok(546));
    assert_eq!(file("encoder.image"), image);
    let (mut masks, mut deadlines, mut averages, mut worst) = ([0; 9], [0; 9], [0; 72], [0; 72]);
    Product.read(&image, &mut masks, &mut deadlines, &mut averages, &mut worst).expect("accepted");
    assert_eq!(file("encoder.durations"), averages.map(u32::to_be_bytes).concat());
    assert_eq!(file("three.image"), common::three(20));
    assert_eq!(file("three.durations"), twice([6, 8, 4]));
    let frames = [[6, 8, 4], [0, 8, 8], [0, 0, 16_777_216], [8, 4, 8]];
    assert_eq!(file("three.recording"), frames.map(twice).concat());
    let text = "3 0 18 0 0\n2 1 16 0 0\nrefused 16\n3 0 20 0 0\n3 8 0 0\n";
    assert_eq!(text::rehearse(&Product, &file("three.image"), POLICY_2008, &file("three.recording")), text);
}

/// The product's own profile of the encoder, and a lent image that is too short or longer.
#[test]
fn encoder_of_the_product() {
    let image = common::encoder();
    for room in [0, 545] {
        let mut lent = vec![7; room];
        assert_eq!(Product.write_encoder(&mut lent), Err(refused::ROOM));
        assert_eq!(lent, vec![7; room]);
    }
    let mut lent = vec![7; 550];
    assert_eq!(Product.write_encoder(&mut lent), Ok(546));
    assert_eq!((&lent[..546], &lent[546..]), (&image[..], &[7; 4][..]));
}

#[test]
fn values_hold() {
    for (name, calls) in common::sides() {
        println!("{name}");
        let calls = &*calls;
        three(calls);
        order(calls);
        encoder(calls);
        bounds(calls);
        refused_start(calls);
        twice_three(calls);
        policy_of_2005(calls);
    }
}
