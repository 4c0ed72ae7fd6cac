//! What a run has covered: counted along the way, printed at the end, and asserted where it must not be zero.

use crate::compare::Lent;
use crate::document::{Ring, Surface};
use crate::model::Model;

/// The answers of the mirror: 0 when it is done, or the number of a refusal.
const MIRROR: [usize; 12] = [0, 1, 3, 4, 5, 6, 7, 8, 9, 10, 11, 16];

/// The answers of the line, and the causes of refusal that can be told together.
const LINE: [usize; 5] = [0, 12, 13, 14, 17];
const LINE_CAUSES: [[usize; 2]; 5] = [[12, 14], [12, 17], [13, 14], [13, 17], [14, 17]];

#[derive(Default)]
pub struct Tally {
    pub closed: u64,
    pub open: u64,
    pub most_vertices: usize,
    pub most_faces: usize,
    /// Answers of the check and of the patch call by number, 0 for accepted.
    pub check: [u64; 15],
    pub patches: [u64; 15],
    /// Patch calls by the first cause met and by each other one.
    pub together: [[u64; 12]; 12],
    /// Patch calls with 2 for one list alone: twins, patches, marks.
    pub alone_short: [u64; 3],
    /// Answers of the mirror by number; those by an earlier cause where 16 was met too; 16 for one list alone, shorter or longer.
    pub mirror: [u64; 17],
    pub before_16: [u64; 12],
    pub alone_off: [[u64; 2]; 3],
    pub samples: [u64; 15],
    pub readings: [u64; 15],
    /// Answers of the line by number; refused lines by each two of the causes met; lines by N - 1, on a list that is one place
    /// too short, on one that they fill, and on a longer one.
    pub lines: [u64; 18],
    pub line_causes: [[u64; 18]; 18],
    pub line_places: [[u64; 3]; 32],
    /// Vertices by n, and by k and tag.
    pub inner: [u64; 17],
    pub rim: [[u64; 2]; 9],
    /// Samples compared, by N - 1.
    pub steps: [u64; 32],
    /// Coordinates of samples that were halves: below zero or not, even number below or above.
    pub halves: [[u64; 2]; 2],
    pub control_values: u64,
    /// Marks 0 and 1 of control points.
    pub marks: [u64; 2],
    pub corner_parts: u64,
    pub distances: u64,
    pub seams: u64,
    pub matches: u64,
    pub renumbered: u64,
    pub images: u64,
    pub reflections: u64,
    /// The largest distance seen, in millionths of one unit.
    pub farthest: u64,
}

impl Tally {
    /// Counts an accepted mesh and its vertices.
    pub fn mesh(&mut self, mesh: &Model) {
        let surface = Surface::new(mesh);
        let closed = surface.counts()[3] == 0;
        self.closed += closed as u64;
        self.open += !closed as u64;
        self.most_vertices = self.most_vertices.max(mesh.vertices);
        self.most_faces = self.most_faces.max(mesh.faces);
        for p in 0..mesh.vertices {
            match surface.ring(p) {
                Ring::Turn(n) => self.inner[n] += 1,
                Ring::Chain(k) => self.rim[k][mesh.tags[p] as usize] += 1,
                Ring::Neither => panic!("not accepted"),
            }
        }
    }

    /// Counts one coordinate of a sample when it is a half.
    pub fn half(&mut self, over: i128, divisor: i128) {
        if 2 * over.rem_euclid(divisor) == divisor {
            let even_below = over.div_euclid(divisor).rem_euclid(2) == 0;
            self.halves[(over < 0) as usize][even_below as usize] += 1;
        }
    }

    /// Counts the causes met by a patch call on these lists.
    pub fn causes(&mut self, causes: &[u8], lent: &Lent, faces: usize) {
        for &other in causes.iter().skip(1) {
            self.together[causes[0] as usize][other as usize] += 1;
        }
        // F may be any number: the places of all faces may be more than a number of this size can say
        let short = lent.lengths().map(|(length, places)| length / places < faces);
        if causes.first() == Some(&2) && short.iter().filter(|&&short| short).count() == 1 {
            (0..3).filter(|&list| short[list]).for_each(|list| self.alone_short[list] += 1);
        }
    }

    /// Counts a call of the mirror by the causes met; the lengths are those of the mesh's lists and of the lent ones.
    pub fn mirror(&mut self, causes: &[u8], right: [usize; 3], lent: [usize; 3]) {
        self.mirror[causes.first().copied().unwrap_or(0) as usize] += 1;
        let off: Vec<usize> = (0..3).filter(|&list| right[list] != lent[list]).collect();
        match (causes, &off[..]) {
            ([16], &[list]) => self.alone_off[list][(lent[list] > right[list]) as usize] += 1,
            ([first, .., 16], _) => self.before_16[*first as usize] += 1,
            _ => {}
        }
    }

    /// Counts a call of the line by the causes met and by the places of its list.
    pub fn line(&mut self, causes: &[u8], n: usize, places: usize) {
        self.lines[causes.first().copied().unwrap_or(0) as usize] += 1;
        for (at, &first) in causes.iter().enumerate() {
            for &other in &causes[at + 1..] {
                self.line_causes[first as usize][other as usize] += 1;
            }
        }
        match causes {
            [] => self.line_places[n - 1][1 + (places > 3 * (n + 1)) as usize] += 1,
            [17] if places + 1 == 3 * (n + 1) => self.line_places[n - 1][0] += 1,
            _ => {}
        }
    }

    pub fn print_answers(&self, title: &str) {
        println!("{title}: answers of the check, 0 to 11: {:?}", &self.check[..12]);
        println!("  answers of the patch call, 0 to 11: {:?}", &self.patches[..12]);
        println!("  control values {}, face parts {}", self.control_values, self.corner_parts);
        println!("  marks 0 and 1 of control points: {:?}", self.marks);
    }

    pub fn print_causes(&self) {
        println!("  refused with 2 for the twins, the patches, the marks alone: {:?}", self.alone_short);
        for first in 2..11 {
            println!(
                "  refused with {first}, other causes met from {}: {:?}",
                first + 1,
                &self.together[first][first + 1..]
            );
        }
    }

    pub fn print_mirror(&self) {
        println!("  answers of the mirror, 0, 1, 3 to 11, 16: {:?}", MIRROR.map(|number| self.mirror[number]));
    }

    pub fn print_lengths(&self) {
        println!("  of the mirror, refused before 16, which was met too, 1 to 11: {:?}", &self.before_16[1..]);
        println!("  refused with 16 for positions, tags, faces alone, shorter and longer: {:?}", self.alone_off);
    }

    pub fn print_shapes(&self) {
        println!(
            "  {} closed and {} open meshes, V to {}, F to {}",
            self.closed, self.open, self.most_vertices, self.most_faces
        );
        println!("  inner vertices by n, 3 to 16: {:?}", &self.inner[3..]);
        println!("  rim vertices by k, 1 to 8, with tag 0 and 1: {:?}", &self.rim[1..]);
    }

    pub fn print_samples(&self, title: &str) {
        println!("{title}: samples by N, 1 to 32: {:?}", self.steps);
        println!(
            "  sample answers 0, 12, 13, 14: {:?}, reading answers: {:?}",
            numbers(&self.samples),
            numbers(&self.readings)
        );
        println!("  halves, positive to above and below, negative to above and below: {:?}", self.halves);
    }

    pub fn print_lines(&self, title: &str) {
        println!("{title}: answers of the line, 0, 12, 13, 14, 17: {:?}", LINE.map(|number| self.lines[number]));
        println!("  by N, 1 to 32, on a list one place short, as long, longer: {:?}", self.line_places);
    }

    pub fn print_line_causes(&self) {
        println!("  refused lines with both causes met, {LINE_CAUSES:?}: {:?}", self.line_pairs());
    }

    /// The refused lines by each two causes that can be told together.
    fn line_pairs(&self) -> [u64; 5] {
        LINE_CAUSES.map(|[first, other]| self.line_causes[first][other])
    }

    pub fn print_claim(&self) {
        println!("  distances {}, farthest {} millionths of a unit", self.distances, self.farthest);
        println!(
            "  seam places {}, renumbered meshes {}, matching places {}",
            self.seams, self.renumbered, self.matches
        );
        println!("  mirrored meshes {}, places of images {}", self.images, self.reflections);
    }

    /// Every n and k, both tags, closed and open meshes, the largest sizes.
    pub fn assert_shapes(&self) {
        assert!(self.inner[3..].iter().all(|&seen| seen > 0), "an n was not seen");
        assert!(self.rim[1..].iter().flatten().all(|&seen| seen > 0), "a k or a tag was not seen");
        assert!(self.closed > 0 && self.open > 0);
        assert_eq!((self.most_vertices, self.most_faces), (512, 256), "the largest sizes were not seen");
        assert!(self.marks.iter().all(|&seen| seen > 0), "a mark was not seen");
    }

    /// Every refusal of the calls on meshes.
    pub fn assert_refusals(&self) {
        assert!(self.check[..12].iter().all(|&seen| seen > 0), "a refusal of the check was not seen");
        assert!(self.patches[..12].iter().all(|&seen| seen > 0), "a refusal of the patch call was not seen");
        assert!(self.alone_short.iter().all(|&seen| seen > 0), "2 was not seen for each list alone");
        for (first, other) in (2..11).flat_map(|first| (first + 1..12).map(move |other| (first, other))) {
            assert!(
                !can_meet(first, other) || self.together[first][other] > 0,
                "{first} and {other} were not seen together"
            );
        }
    }

    /// Every answer of the mirror, 16 behind every other refusal, and 16 for each list alone.
    pub fn assert_mirror(&self) {
        assert!(MIRROR.iter().all(|&number| self.mirror[number] > 0), "an answer of the mirror was not seen");
        assert!(MIRROR[1..11].iter().all(|&first| self.before_16[first] > 0), "16 was not seen behind each refusal");
        assert!(self.alone_off.iter().flatten().all(|&seen| seen > 0), "16 was not seen for each list alone");
    }

    /// Every N, every refusal of a sample and of a reading, every kind of half.
    pub fn assert_samples(&self) {
        assert!(self.steps.iter().all(|&seen| seen > 0), "an N was not seen");
        assert!(numbers(&self.samples).iter().all(|&seen| seen > 0), "an answer of the sample call was not seen");
        assert!(numbers(&self.readings).iter().all(|&seen| seen > 0), "an answer of the reading was not seen");
        assert!(self.halves.iter().flatten().all(|&seen| seen > 0), "a kind of half was not seen");
    }

    /// Every answer of the line, and every two causes of its refusals.
    pub fn assert_lines(&self) {
        assert!(LINE.iter().all(|&number| self.lines[number] > 0), "an answer of the line was not seen");
        assert!(self.line_pairs().iter().all(|&seen| seen > 0), "two causes of a refused line were not seen together");
    }

    /// For every N, lists that are one place too short, as long as the line, and longer.
    pub fn assert_line_places(&self) {
        assert!(self.line_places.iter().flatten().all(|&seen| seen > 0), "a list for a line was not seen");
    }

    /// Each of the three parts of the claim, and that of the mirror.
    pub fn assert_claim(&self) {
        assert!(self.distances > 0 && self.seams > 0 && self.matches > 0 && self.renumbered > 0);
        assert!(self.images > 0 && self.reflections > 0);
    }
}

/// Whether causes of rule R2 can be told together: no 7 to 11 where 5 is met, none after 6 but 7, none after 7.
fn can_meet(first: usize, other: usize) -> bool {
    match first {
        5 => other == 6,
        6 => other == 7,
        7 => false,
        _ => true,
    }
}

/// The counts for the answers 0, 12, 13 and 14.
fn numbers(answers: &[u64; 15]) -> [u64; 4] {
    [0, 12, 13, 14].map(|number: usize| answers[number])
}
