//! The cosines c(m) and the weights A and B of tangents, all of them. The cosines by their series; the weights by the user's rules in whole
//! numbers, on those cosines, and held against equation (2) of [LS] in real numbers. And 0 for every other number.

use crate::document::nearest;
use crate::interval::Interval;

/// 1 as a cosine, and as a weight.
pub const ONE: i128 = 1 << 20;

/// The cosine of a number of parts of the full turn, of which there are m.
fn real_cosine(parts: usize, m: usize) -> Interval {
    Interval::pi().times(2 * parts as i128).over(m as i128).cosine()
}

/// c(m), m from 3 to 32.
pub fn c(m: usize) -> i128 {
    real_cosine(1, m).times(ONE).nearest()
}

/// Rounds as everywhere. No half comes up here, so that nothing hangs on where halves go.
fn rounded(over: i128, divisor: i128) -> i128 {
    assert_ne!(2 * over.rem_euclid(divisor), divisor, "a half");
    nearest(over, divisor)
}

/// C(m,0) to C(m,m-1): each from the two before it up to the middle, then backwards.
fn multiples(m: usize) -> Vec<i128> {
    let mut list = vec![ONE, c(m)];
    for i in 1..m / 2 {
        list.push(rounded(2 * c(m) * list[i], ONE) - list[i - 1]);
    }
    (0..m).map(|i| list[i.min(m - i)]).collect()
}

/// H and R of n faces.
fn half_and_root(n: usize) -> [i128; 2] {
    let h = c(2 * n);
    let square = (1 << 42) + h * h;
    let r = square.isqrt();
    assert!(r * r <= square && square < (r + 1) * (r + 1));
    [h, r]
}

/// A(n,i) and B(n,i), for each i.
pub fn weights(n: usize) -> Vec<[i128; 2]> {
    let ([h, r], edges, faces) = (half_and_root(n), multiples(n), multiples(2 * n));
    let divisor = n as i128 * r;
    (0..n).map(|i| [rounded((r + h) * edges[i], divisor), rounded(ONE * faces[2 * i + 1], divisor)]).collect()
}

/// The weights of edge i and of face i in equation (2) of [LS].
fn real_weights(n: usize, i: usize) -> [Interval; 2] {
    let h = real_cosine(1, 2 * n);
    let root = (Interval::fraction(4, 1) + h * h).root().times(n as i128);
    [(Interval::fraction(1, n as i128) + h / root) * real_cosine(i, n), real_cosine(2 * i + 1, 2 * n) / root]
}

/// The weights that the library has for n and i.
fn library_weights(n: usize, i: usize) -> [i128; 2] {
    [rusketja::edge_weight(n, i), rusketja::face_weight(n, i)].map(i128::from)
}

/// Every n from 3 to 16 with every i below it.
fn every_weight() -> impl Iterator<Item = (usize, usize)> {
    (3..=16).flat_map(|n| (0..n).map(move |i| (n, i)))
}

#[test]
fn every_cosine_is_the_nearest_whole_number() {
    let mut farthest = 0;
    for m in 3..=32 {
        let found = rusketja::cosine(m) as i128;
        assert_eq!(found, c(m), "c({m}), left: library");
        farthest = farthest.max(real_cosine(1, m).times(ONE).apart(found));
    }
    // Below half a unit in whole numbers too: no other whole number is as near.
    assert!(farthest < 500_000);
    println!("cosines: 30, at most {farthest} millionths of a unit off");
}

/// Cosines that are fractions or have one root: of a third, a quarter and a sixth, of an eighth and a twelfth, of a fifth and a tenth.
#[test]
fn cosines_with_one_root() {
    let twice = |m: usize| 2 * rusketja::cosine(m) as i128;
    assert_eq!([3, 4, 6].map(twice), [-ONE, 0, ONE]);
    // Whether the root of the square lies between k times 2e - 1 and k times 2e + 1, each with the number added.
    let holds = |m: usize, k: i128, added: i128, square: i128| {
        let [low, high] = [twice(m) - 1, twice(m) + 1].map(|end| k * end + added);
        0 < low && low * low < square && square < high * high
    };
    assert!(holds(8, 1, 0, 2 * ONE * ONE));
    assert!(holds(12, 1, 0, 3 * ONE * ONE));
    assert!(holds(5, 2, ONE, 5 * ONE * ONE));
    assert!(holds(10, 2, -ONE, 5 * ONE * ONE));
}

#[test]
fn every_weight_follows_its_rule() {
    for n in 3..=16 {
        for (i, expected) in weights(n).into_iter().enumerate() {
            assert_eq!(library_weights(n, i), expected, "A({n},{i}) and B({n},{i}), left: library");
        }
    }
    println!("weights: {} of edges, as many of faces", every_weight().count());
}

#[test]
fn every_weight_is_within_one_unit_of_the_real_one() {
    let mut farthest = [0; 2];
    for (n, i) in every_weight() {
        let (found, real) = (library_weights(n, i), real_weights(n, i));
        for which in 0..2 {
            let apart = real[which].times(ONE).apart(found[which]);
            assert!(apart <= 1_000_000, "{} of {n} faces, {i}: {apart} millionths off", ["edge", "face"][which]);
            farthest[which] = farthest[which].max(apart);
        }
    }
    println!("weights of edges and of faces: at most {farthest:?} millionths of a unit off");
}

/// A third and a twelfth: the tangent of a bicubic B-spline.
#[test]
fn weights_of_four_faces() {
    let (third, twelfth) = (nearest(ONE, 3), nearest(ONE, 12));
    let expected = [[third, twelfth], [0, -twelfth], [-third, -twelfth], [0, twelfth]];
    assert_eq!([0, 1, 2, 3].map(|i| library_weights(4, i)), expected);
}

#[test]
fn weights_are_the_same_from_both_ends() {
    for (n, i) in every_weight() {
        assert_eq!(rusketja::edge_weight(n, i), rusketja::edge_weight(n, (n - i) % n), "A({n},{i})");
        assert_eq!(rusketja::face_weight(n, i), rusketja::face_weight(n, n - 1 - i), "B({n},{i})");
    }
}

/// Numbers that are off in their high bits alone, and the largest.
fn far(number: usize) -> impl Iterator<Item = usize> {
    let bits = [8, 16, 31, 32, 59, 60, 61, 62, 63];
    bits.into_iter().map(move |bit| number + (1 << bit)).chain([usize::MAX - number])
}

#[test]
fn no_cosine_off_the_range() {
    for m in (0..3).chain(33..=70).chain((0..=70).flat_map(far)) {
        assert_eq!(rusketja::cosine(m), 0, "c({m})");
    }
}

#[test]
fn no_weight_off_the_ranges() {
    let none = |n: usize, i: usize| assert_eq!(library_weights(n, i), [0, 0], "n {n}, i {i}");
    for (n, i) in (0..=70).flat_map(|n| (0..=70).map(move |i| (n, i))) {
        if !(3..=16).contains(&n) || i >= n {
            none(n, i);
        }
        for distant in far(n) {
            none(distant, i);
        }
        for distant in far(i) {
            none(n, distant);
            far(n).for_each(|other| none(other, distant));
        }
    }
}
