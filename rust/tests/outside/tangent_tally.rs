//! What the tests of the tangent call have covered: counted along the way, printed at the end, and asserted where it must not be zero.

use crate::document::Fraction;

/// The answers of the call: 0 when it is done, or the number of a refusal.
const ANSWERS: [usize; 13] = [0, 1, 3, 4, 5, 6, 7, 8, 9, 10, 11, 12, 18];

#[derive(Default)]
pub struct TangentTally {
    /// Answers by number; those by an earlier cause where 12 was met too, and where the list had another length.
    pub answers: [u64; 19],
    pub before_12: [u64; 12],
    pub before_18: [u64; 13],
    /// Refusals 18 by the corners on the rim, as bits, with a list of 72 and with another; and for the list alone, shorter and longer.
    pub rim: [[u64; 2]; 16],
    pub lengths: [u64; 2],
    /// Faces whose vectors were compared, in closed and in open meshes: by corner and by n there.
    pub corners: [[[u64; 17]; 4]; 2],
    pub numbers: u64,
    /// Numbers that were halves, at corners and at edges: below zero or not, even number below or above.
    pub halves: [[[u64; 2]; 2]; 2],
    /// Ends of edges between two faces that have vectors, by n at this end and at the other; the largest distance in hundredths of a unit.
    pub ends: [[u64; 17]; 17],
    pub farthest: i128,
    /// Faces begun by 0 to 3 corners later, where they stand and in a mesh with new numbers.
    pub turned: [u64; 4],
    pub renumbered: [u64; 4],
}

impl TangentTally {
    /// Counts a call by the causes met.
    pub fn call(&mut self, causes: &[u8], places: usize) {
        let first = causes.first().copied().unwrap_or(0) as usize;
        self.answers[first] += 1;
        if first < 12 && causes.contains(&12) {
            self.before_12[first] += 1;
        }
        if (1..18).contains(&first) && places != 72 {
            self.before_18[first] += 1;
        }
    }

    /// Counts a refusal 18.
    pub fn refused(&mut self, valences: [Option<usize>; 4], places: usize) {
        let rim = (0..4).filter(|&s| valences[s].is_none()).map(|s| 1 << s).sum::<usize>();
        self.rim[rim][(places != 72) as usize] += 1;
        if rim == 0 {
            self.lengths[(places > 72) as usize] += 1;
        }
    }

    /// Counts a face whose vectors were compared, and the fractions that were rounded for it: eight at corners, eight at edges.
    pub fn face(&mut self, closed: bool, valences: [Option<usize>; 4], rounded: &[Fraction]) {
        for (s, n) in valences.into_iter().enumerate() {
            self.corners[!closed as usize][s][n.expect("an inner corner")] += 1;
        }
        self.numbers += 72;
        for (at, Fraction { over, divisor }) in rounded.iter().enumerate() {
            for over in over.iter().filter(|over| 2 * over.rem_euclid(*divisor) == *divisor) {
                let even_below = over.div_euclid(*divisor).rem_euclid(2) == 0;
                self.halves[at / 8][(*over < 0) as usize][even_below as usize] += 1;
            }
        }
    }

    /// Counts one end of an edge.
    pub fn end(&mut self, n: usize, other: usize, hundredths: i128) {
        self.ends[n][other] += 1;
        self.farthest = self.farthest.max(hundredths);
    }

    pub fn print_answers(&self, title: &str) {
        println!(
            "{title}: answers of the tangents, 0, 1, 3 to 12, 18: {:?}",
            ANSWERS.map(|number| self.answers[number])
        );
        println!("  refused before 12, which was met too, 1 to 11: {:?}", &self.before_12[1..]);
        println!("  refused on a list of another length before 18, 1 to 12: {:?}", &self.before_18[1..]);
        println!("  18 by corners on the rim, 0 to 15, with 72 places and with others: {:?}", self.rim);
        println!("  18 for the list alone, shorter and longer: {:?}", self.lengths);
    }

    pub fn print_faces(&self) {
        for (kind, corners) in ["closed", "open"].into_iter().zip(&self.corners) {
            let rows: Vec<&[u64]> = corners.iter().map(|row| &row[3..]).collect();
            println!("  corners 0 to 3 of faces of {kind} meshes, by n, 3 to 16: {rows:?}");
        }
        println!("  numbers {}, halves at corners and at edges: {:?}", self.numbers, self.halves);
    }

    pub fn print_claims(&self) {
        let pairs = self.ends.iter().flatten().filter(|&&seen| seen > 0).count();
        let ends: u64 = self.ends.iter().flatten().sum();
        println!(
            "  ends of edges {ends}, with {pairs} pairs of n, at most {} hundredths of a unit apart",
            self.farthest
        );
        println!("  faces begun 0 to 3 corners later: {:?}, with new numbers: {:?}", self.turned, self.renumbered);
    }

    /// Done, 12 and 18; 18 for each corner alone and for all, and for the list alone.
    pub fn assert_own_answers(&self) {
        assert!([0, 12, 18].iter().all(|&number| self.answers[number] > 0), "an answer of the tangents was not seen");
        assert!([1, 2, 4, 8, 15].iter().all(|&rim| self.rim[rim][0] > 0), "corners on the rim were not seen");
        assert!(self.lengths.iter().all(|&seen| seen > 0), "a list of another length was not seen");
        assert!(self.before_18[12] > 0, "12 was not seen before 18");
    }

    /// Every refusal, each before 12 and before 18.
    pub fn assert_refusals(&self) {
        assert!(ANSWERS.iter().all(|&number| self.answers[number] > 0), "an answer of the tangents was not seen");
        assert!(ANSWERS[1..11].iter().all(|&first| self.before_12[first] > 0), "12 was not seen behind each refusal");
        assert!(ANSWERS[1..12].iter().all(|&first| self.before_18[first] > 0), "18 was not seen behind each refusal");
    }

    /// Every n at every corner, in closed and in open meshes, and every kind of half.
    pub fn assert_faces(&self) {
        let corners = || self.corners.iter().flatten();
        assert!(corners().all(|row| row[3..].iter().all(|&seen| seen > 0)), "an n was not seen at a corner");
        assert!(self.halves.iter().flatten().flatten().all(|&seen| seen > 0), "a kind of half was not seen");
    }

    /// Every n at both ends of an edge, different ones among them, and every turn of a face.
    pub fn assert_claims(&self) {
        let different = |n: usize| (3..=16).any(|other| n != other && self.ends[n][other] > 0);
        assert!((3..=16).all(different), "an n was not seen beside another");
        let pairs = self.ends.iter().flatten().filter(|&&seen| seen > 0).count();
        assert!(pairs >= 150, "{pairs} pairs of n were seen");
        assert!(self.turned[1..].iter().chain(&self.renumbered).all(|&seen| seen > 0), "a turn was not seen");
        // Rounding leaves something: two vectors that meet are not the cosine term to the very number.
        assert!(self.farthest > 100, "edges were compared that have nothing between them");
    }
}
