//! The line call: lists of every length for every N and b, every cause of refusal alone and with others, and lines by hand.

use crate::random::Random;
use crate::tally::Tally;
use crate::{compare, seed};

const LIMIT: i32 = 268_435_456;

/// The places of a list to lend: as many as the line needs, one less, one more, or anything.
pub fn any_places(n: usize, random: &mut Random) -> usize {
    let needed = 3 * (n.min(40) + 1);
    match random.below(8) {
        0 => needed - 1,
        1 => needed + 1,
        2 => random.below(needed),
        3 => needed + random.below(100),
        4 => 0,
        _ => needed,
    }
}

/// The patch list of some faces, of any numbers up to the limit.
fn any_patches(faces: usize, random: &mut Random) -> Vec<i32> {
    (0..48 * faces).map(|_| random.within(-LIMIT as i64, LIMIT as i64) as i32).collect()
}

/// Every list that is too short, the one that is filled, and some that are longer, also by what is lost in 8 or in 16 bits.
#[test]
fn every_length_of_a_line() {
    let (mut tally, mut random) = (Tally::default(), Random::case(seed(), 7, 0));
    let patches = any_patches(3, &mut random);
    for (n, b) in (1..=32).flat_map(|n| (0..=n).map(move |b| (n, b))) {
        let needed = 3 * (n + 1);
        for places in (0..needed + 7).chain([needed + 255, 256, if b == n { 65_536 } else { 512 }]) {
            compare::line_call(&patches, random.below(3), n, b, places, &mut random, &mut tally);
        }
    }
    tally.print_lines("every length of a line");
    tally.assert_line_places();
}

/// N and b, right and off their ranges: near, far, and off in their high bits alone.
const STEPS: [[usize; 2]; 22] = [
    [1, 0],
    [1, 1],
    [4, 2],
    [32, 0],
    [32, 32],
    [0, 0],
    [0, 1],
    [33, 0],
    [33, 33],
    [33, 34],
    [1, 2],
    [32, 33],
    [4, 256 + 2],
    [4, (1 << 16) + 2],
    [4, (1 << 32) + 2],
    [4, usize::MAX],
    [256 + 4, 2],
    [(1 << 16) + 4, 2],
    [(1 << 32) + 4, 2],
    [usize::MAX / 3, 2],
    [usize::MAX, 0],
    [usize::MAX, usize::MAX],
];

/// Every face of a patch list and some behind its end, on lists that are long enough or not.
fn hold(patches: &[i32], random: &mut Random, tally: &mut Tally) {
    let faces = patches.len() / 48;
    for face in (0..faces + 2).chain([(1 << 60) + 1, usize::MAX / 48, usize::MAX / 48 + 1, usize::MAX]) {
        for [n, b] in STEPS {
            let needed = 3 * (n.min(40) + 1);
            for places in [0, needed - 3, needed - 1, needed, needed + 3] {
                compare::line_call(patches, face, n, b, places, random, tally);
            }
        }
    }
}

/// One control value off at each place of the middle face, each way; lists that end in a face; nothing off; nothing at all.
#[test]
fn every_cause_of_a_line() {
    let (mut tally, mut random) = (Tally::default(), Random::case(seed(), 8, 0));
    let patches = any_patches(3, &mut random);
    for (place, off) in (48..96).flat_map(|place| [LIMIT + 1, -LIMIT - 1].map(|off| (place, off))) {
        let mut patches = patches.clone();
        patches[place] = off;
        hold(&patches, &mut random, &mut tally);
    }
    for length in [0, 1, 47, 48, 49, 95, 96, 97, 143, 144] {
        hold(&patches[..length], &mut random, &mut tally);
        hold(&vec![i32::MIN; length], &mut random, &mut tally);
        hold(&vec![-LIMIT; length], &mut random, &mut tally);
    }
    tally.print_lines("every cause of a line");
    tally.print_line_causes();
    tally.assert_lines();
}

/// The points of a line on a list that it fills.
fn line(patches: &[i32], n: usize, b: usize) -> Vec<[i32; 3]> {
    rusketja::sample_line(patches, 0, n, b, &mut [7; 99][..3 * (n + 1)]).expect("a line").to_vec()
}

/// One control point alone, b(0,3), with N = 2: it has weights 8, 1, 0 along u and 0, 1, 8 along v, over 64.
#[test]
fn line_of_one_control_point() {
    let mut patches = [0; 48];
    patches[36..39].copy_from_slice(&[96, -96, 160]);
    assert_eq!(line(&patches, 2, 0), [[0; 3]; 3]);
    // 3/2, -3/2 and 5/2 are halves.
    assert_eq!(line(&patches, 2, 1), [[12, -12, 20], [2, -2, 2], [0; 3]]);
    assert_eq!(line(&patches, 2, 2), [[96, -96, 160], [12, -12, 20], [0; 3]]);
    assert_eq!(line(&patches, 1, 1), [[96, -96, 160], [0; 3]]);
}

/// All control values at the limit: so is every sample.
#[test]
fn line_at_the_limit() {
    for limit in [LIMIT, -LIMIT] {
        for (n, b) in (1..=32).flat_map(|n| (0..=n).map(move |b| (n, b))) {
            assert_eq!(line(&[limit; 48], n, b), vec![[limit; 3]; n + 1]);
        }
    }
}
