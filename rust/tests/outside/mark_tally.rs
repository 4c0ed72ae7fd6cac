//! What a run of the marks has covered.

#[derive(Default)]
pub struct MarkTally {
    /// Marks 0 and 1 of control points, by the place of the point.
    pub points: [[u64; 2]; 16],
    /// Samples by whether the sixteen marks of the face are 1, and by whether their own division leaves nothing; exact ones inside a face.
    samples: [[u64; 2]; 2],
    inside: u64,
    /// Answers of the marked sample: 0, or the number of a refusal; and 12 by the marks alone, with no other cause, before 13, before 14.
    pub answers: [u64; 15],
    pub short_alone: [u64; 3],
    /// Places of renumbered meshes and of mirror images.
    pub matches: u64,
    pub reflections: u64,
}

impl MarkTally {
    pub fn sample(&mut self, marks: bool, whole: bool, inside: bool) {
        self.samples[marks as usize][whole as usize] += 1;
        self.inside += (marks && whole && inside) as u64;
    }

    pub fn print_points(&self) {
        println!("  marks 0 and 1 by control point: {:?}", self.points);
    }

    pub fn print_samples(&self) {
        println!("  samples with marks other than 1 and with all 1, each with a rest and without: {:?}", self.samples);
        println!("  exact samples inside a face: {}", self.inside);
    }

    pub fn print_answers(&self) {
        println!("  answers of the marked sample, 0, 12, 13, 14: {:?}", self.numbers());
        println!("  12 by the marks alone, with no other cause, before 13, before 14: {:?}", self.short_alone);
    }

    pub fn print_claims(&self) {
        println!("  matching places of renumbered meshes {}, of images {}", self.matches, self.reflections);
    }

    fn numbers(&self) -> [u64; 4] {
        [0, 12, 13, 14].map(|number: usize| self.answers[number])
    }

    /// Every kind of marked sample.
    pub fn assert_samples(&self) {
        assert!(self.samples.iter().flatten().all(|&seen| seen > 0), "a kind of marked sample was not seen");
        assert!(self.inside > 0, "no exact sample inside a face was seen");
    }

    /// Both marks of every control point, and every kind of marked sample.
    pub fn assert_marks(&self) {
        assert!(self.points.iter().flatten().all(|&seen| seen > 0), "a mark of a control point was not seen");
        assert!(self.matches > 0 && self.reflections > 0);
        self.assert_samples();
    }

    /// Every answer, and 12 by the marks alone before each other cause.
    pub fn assert_answers(&self) {
        assert!(self.numbers().iter().all(|&seen| seen > 0), "an answer of the marked sample was not seen");
        assert!(self.short_alone.iter().all(|&seen| seen > 0), "12 by the marks alone was not seen before each cause");
    }
}
