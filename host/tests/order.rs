//! Loops and the lowest action on one, what must follow, and refusal 9 against every permitted order, of the definitions and of the product.

mod common;

use nyokazerubi_host::calls::{refused, Calls, Counts, Refused, POLICY_2008};
use nyokazerubi_host::draw::{Draw, Size, Sketch};
use nyokazerubi_host::product::Product;
use nyokazerubi_host::reference::{Follows, Order, Profile};

/// The place of an action in an order.
fn place(order: &Order, a: usize) -> usize {
    order.0.iter().position(|&b| b == a).expect("every action has a place")
}

/// All that comes before an action, at any remove: what its mask names, what the masks of these name, and so on until nothing is new.
fn all_before(masks: &[u64], a: usize) -> u64 {
    let mut all = masks[a];
    loop {
        let named = (0..masks.len()).filter(|b| all >> b & 1 == 1).fold(all, |named, b| named | masks[b]);
        if named == all {
            return all;
        }
        all = named;
    }
}

/// 8 with the lowest action that comes before itself.
fn loop_refusal(masks: &[u64]) -> Option<Refused> {
    (0..masks.len()).find(|&a| all_before(masks, a) >> a & 1 == 1).map(|a| refused::LOOP.at(a))
}

/// What the order's rules say, confirmed over every permitted order. The table rule must hold.
fn confirm(profile: &Profile) -> Option<Refused> {
    let every = Order::every(profile);
    let follows = Follows::of(profile);
    let refusal = profile.refusal();
    assert_eq!(follows.on_a_loop().is_empty(), !every.is_empty(), "{profile:?}");
    assert_eq!(Product.check(&image(profile)).err(), refusal, "the product's check of {profile:?}");
    if every.is_empty() {
        assert!(refusal.is_some() && refusal == loop_refusal(&profile.masks), "{profile:?}");
        return refusal;
    }
    for a in 0..profile.n {
        for b in 0..profile.n {
            let always = every.iter().all(|order| place(order, a) < place(order, b));
            assert_eq!(follows.must_follow(a, b), always, "{b} after {a} in {profile:?}");
        }
    }
    assert!(every.contains(&Order::by_urgency(profile)), "{profile:?}");
    let unfit = every.iter().all(|order| order.misses_a_deadline(profile));
    assert_eq!(refusal == Some(refused::UNFIT), unfit, "{profile:?}");
    refusal
}

/// The image of a profile.
fn image(profile: &Profile) -> Vec<u8> {
    let row = |row: &[i64]| row.iter().map(|&time| time as u32).collect::<Vec<u32>>();
    Sketch {
        n: profile.n as u32,
        levels: profile.levels as u32,
        cycle: profile.cycle as u32,
        masks: profile.masks.clone(),
        deadlines: row(&profile.deadlines),
        averages: row(&profile.averages.concat()),
        worst: row(&profile.worst.concat()),
        ..Sketch::default()
    }
    .image()
}

/// Its number, 0 for none.
fn number(refusal: Option<Refused>) -> usize {
    refusal.map_or(0, |refused| refused.number.into())
}

/// One level, averages 0.
fn bare(masks: Vec<u64>, deadlines: Vec<i64>, worst: &[i64], cycle: i64) -> Profile {
    let n = masks.len();
    let worst = worst.iter().map(|&time| vec![time]).collect();
    Profile { n, levels: 1, cycle, masks, deadlines, averages: vec![vec![0]; n], worst }
}

/// All masks of three actions, all deadlines up to 4, all times up to 2.
#[test]
fn all_of_three_actions() {
    let mut met = [0; 10];
    for code in 0..512u64 {
        let masks = vec![code & 7, code >> 3 & 7, code >> 6];
        for deadlines in 0..64 {
            let deadlines = vec![1 + deadlines % 4, 1 + deadlines / 4 % 4, 1 + deadlines / 16];
            for worst in 0..27 {
                let worst = [worst % 3, worst / 3 % 3, worst / 9];
                met[number(confirm(&bare(masks.clone(), deadlines.clone(), &worst, 4)))] += 1;
            }
        }
    }
    println!("fit {}, loop {}, unfit {}", met[0], met[8], met[9]);
    assert!(met[0] > 0 && met[8] > 0 && met[9] > 0);
}

/// All masks of four actions, each with drawn deadlines and times, those without a loop many times.
#[test]
fn all_masks_of_four_actions() {
    let mut draw = Draw::new(4);
    let mut met = [0; 10];
    for code in 0..65_536u64 {
        let masks: Vec<u64> = (0..4).map(|a| code >> (4 * a) & 15).collect();
        for _ in 0..100 {
            let mut few = |most| (0..4).map(|_| i64::from(draw.between(0, most))).collect::<Vec<i64>>();
            let number = number(confirm(&bare(masks.clone(), few(8), &few(3), 8)));
            met[number] += 1;
            if number == 8 {
                break;
            }
        }
    }
    println!("fit {}, loop {}, unfit {}", met[0], met[8], met[9]);
    assert_eq!(65_536 - met[8], 543, "orders of four things that are told apart");
}

/// Drawn profiles of up to seven actions, a few with a mask too many.
#[test]
fn drawn_up_to_seven_actions() {
    let mut draw = Draw::new(7);
    let (mut met, mut sizes) = ([0; 10], [0; 8]);
    while sizes[7] < 150 {
        let size = draw.pick(&[Size::Tiny, Size::Small]);
        let mut sketch = draw.profile(size);
        if sketch.n > 7 {
            continue;
        }
        if draw.once_in(8) {
            let (a, b) = (draw.index(sketch.masks.len()), draw.between(0, sketch.n - 1));
            sketch.masks[a] |= 1 << b;
        }
        met[number(confirm(&common::profile(&sketch)))] += 1;
        sizes[sketch.n as usize] += 1;
    }
    println!("fit {}, loop {}, unfit {}; by n {sizes:?}", met[0], met[8], met[9]);
    assert!(met[0] > 100 && met[8] > 10 && met[9] > 100);
}

/// 8 of an image and of a writing on all sides, with the lowest action that comes before itself; none where there is no loop.
fn confirm_loop(sides: &[(&str, Box<dyn Calls>)], masks: &[u64]) -> Option<usize> {
    let n = masks.len();
    let profile = bare(masks.to_vec(), vec![0; n], &vec![0; n], 1);
    let (wanted, image) = (loop_refusal(masks), image(&profile));
    for (name, calls) in sides {
        let (times, mut lent) = (vec![0; n], vec![0; image.len()]);
        let counts = Counts { n, levels: 1, cycle: 1 };
        let written = calls.write(counts, masks, &times, &times, &times, &mut lent);
        assert_eq!([calls.check(&image).err(), written.err()], [wanted; 2], "{name}: {masks:?}");
    }
    wanted.map(|refused| refused.action.into())
}

/// Loops by hand: each action comes before the next of its line, and the last before the first.
#[test]
fn loops_by_hand() {
    let sides = common::sides();
    let lowest = |n: usize, loops: &[&[usize]], steps: &[(usize, usize)]| {
        let mut masks = vec![0; n];
        for line in loops {
            for (place, &a) in line.iter().enumerate() {
                masks[line[(place + 1) % line.len()]] |= 1 << a;
            }
        }
        for &(b, a) in steps {
            masks[a] |= 1 << b;
        }
        confirm_loop(&sides, &masks)
    };
    assert_eq!(lowest(8, &[], &[(0, 1), (1, 7), (7, 2)]), None);
    assert_eq!(lowest(1, &[&[0]], &[]), Some(0));
    assert_eq!(lowest(64, &[&[63]], &[]), Some(63));
    assert_eq!(lowest(8, &[&[5], &[3]], &[]), Some(3));
    // Lower ones that come before the loop, or after it, or both before one and after another, are on none.
    assert_eq!(lowest(8, &[&[5, 2]], &[(0, 1), (1, 5), (0, 2)]), Some(2));
    assert_eq!(lowest(8, &[&[2, 5]], &[(5, 1), (1, 0), (2, 0)]), Some(2));
    assert_eq!(lowest(8, &[&[6, 4], &[7, 5]], &[(4, 0), (0, 1), (1, 7)]), Some(4));
    // Two loops through one action; one through all.
    assert_eq!(lowest(8, &[&[7, 4, 6], &[6, 5]], &[(5, 1), (1, 3), (3, 2)]), Some(4));
    let all: Vec<usize> = (0..64).rev().collect();
    assert_eq!(lowest(64, &[&all], &[]), Some(0));
    let tail: Vec<usize> = (40..64).collect();
    let down: Vec<(usize, usize)> = (1..41).map(|a| (a, a - 1)).collect();
    assert_eq!(lowest(64, &[&tail], &down), Some(40));
}

/// Drawn masks of up to 64 actions: an order, and a loop or two across it.
#[test]
fn drawn_loops() {
    let (mut draw, sides) = (Draw::new(8), common::sides());
    let (mut met, mut before, mut after) = ([0; 64], 0, 0);
    for _ in 0..3000 {
        let size = draw.pick(&[Size::Small, Size::Large]);
        let mut masks = draw.profile(size).masks;
        for _ in 0..draw.between(1, 4) {
            let (a, b) = (draw.index(masks.len()), draw.index(masks.len()));
            masks[a] |= 1 << b;
        }
        let Some(a) = confirm_loop(&sides, &masks) else { continue };
        met[a] += 1;
        before += usize::from((0..a).any(|b| all_before(&masks, a) >> b & 1 == 1));
        after += usize::from((0..a).any(|b| all_before(&masks, b) >> a & 1 == 1));
    }
    let different = met.iter().filter(|&&times| times > 0).count();
    println!(
        "{} loops, the lowest action one of {different}, {before} with a lower one before, {after} after",
        met.iter().sum::<usize>()
    );
    assert!(different > 30 && before > 300 && after > 300);
}

/// Lines of up to 64 actions by their numbers, against them and mixed: full graphs, chains and graphs with gaps, their deadlines one, rising and falling
/// along the line and drawn. The order on all sides is that of the definitions; with a step from the last action back to the first it is 8.
#[test]
fn lines_and_numbers() {
    let (mut draw, sides) = (Draw::new(66), common::sides());
    for n in [1, 2, 3, 4, 5, 6, 8, 33, 63, 64usize] {
        let mixed: Vec<usize> =
            (0..n).map(|place| if place % 2 == 0 { place / 2 } else { n - 1 - place / 2 }).collect();
        for line in [(0..n).collect(), (0..n).rev().collect(), mixed] {
            for shape in 0..4 {
                for deadlines in 0..4 {
                    let profile = lined(&mut draw, &line, shape, deadlines);
                    confirm_order(&sides, &profile);
                    let mut around = profile;
                    around.masks[line[0]] |= 1 << line[n - 1];
                    confirm_refused(&sides, &around);
                }
            }
        }
    }
}

/// One level, each action of time 1, in a cycle that all deadlines leave time for.
fn lined(draw: &mut Draw, line: &[usize], shape: usize, kind: usize) -> Profile {
    let n = line.len();
    let (mut masks, mut deadlines) = (vec![0; n], vec![0; n]);
    for (place, &a) in line.iter().enumerate() {
        for (earlier, &b) in line[..place].iter().enumerate() {
            let after = [true, earlier + 1 == place, (place - earlier) % 3 == 1, earlier + 5 > place][shape];
            masks[a] |= u64::from(after) << b;
        }
        deadlines[a] = [0, n + place, 3 * n - place, draw.between(n as u32, 4 * n as u32) as usize][kind] as i64;
    }
    bare(masks, deadlines, &vec![1; n], 4 * n as i64)
}

fn confirm_order(sides: &[(&str, Box<dyn Calls>)], profile: &Profile) {
    let (image, n) = (image(profile), profile.n);
    let wanted: Vec<u8> = Order::by_urgency(profile).0.iter().map(|&a| a as u8).collect();
    for (name, calls) in sides {
        let (mut order, mut limits, mut worst, mut bounds) = (vec![0; n], vec![0; n], vec![0; n], vec![0; 16 * n]);
        let planned = calls.plan(&image, POLICY_2008, &mut order, &mut limits, &mut worst, &mut bounds);
        assert!(planned.is_ok() && order == wanted, "{name}: {order:?} for {wanted:?}, {profile:?}");
    }
}

fn confirm_refused(sides: &[(&str, Box<dyn Calls>)], profile: &Profile) {
    let wanted = loop_refusal(&profile.masks);
    assert!(wanted.is_some(), "a loop: {profile:?}");
    for (name, calls) in sides {
        assert_eq!(calls.check(&image(profile)).err(), wanted, "{name}: {profile:?}");
    }
}
