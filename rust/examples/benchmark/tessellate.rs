//! The program that prints samples, in Rust: a file (rule F1) from standard input, its listing (rule F10) to standard output.

use crate::access::Access;
use crate::limits::*;
use crate::line::{sample_line, PLACES};
use crate::patch::patches;
use rusketja::{Mesh, Refusal, PATCH_MARKS, PATCH_VALUES};
use std::io::{self, Read, Write};

/// Printed bytes are handed on in stretches of about this length.
const STRETCH: usize = 1 << 16;

/// Lines that are printed.
struct Printer<W> {
    bytes: Vec<u8>,
    out: W,
}

impl<W: Write> Printer<W> {
    /// The number, and what stands behind it.
    #[inline(always)]
    fn number(&mut self, number: i64, behind: u8) {
        let mut digits = [0; 20];
        let mut at = digits.len();
        let mut rest = number.unsigned_abs();
        loop {
            at -= 1;
            digits[at] = b'0' + (rest % 10) as u8;
            rest /= 10;
            if rest == 0 {
                break;
            }
        }
        if number < 0 {
            self.bytes.push(b'-');
        }
        self.bytes.extend_from_slice(&digits[at..]);
        self.bytes.push(behind);
    }

    fn line<const L: usize>(&mut self, numbers: [i64; L]) -> io::Result<()> {
        for (i, number) in numbers.into_iter().enumerate() {
            self.number(number, if i + 1 < L { b' ' } else { b'\n' });
        }
        if STRETCH <= self.bytes.len() {
            self.flush()?;
        }
        Ok(())
    }

    fn flush(&mut self) -> io::Result<()> {
        self.out.write_all(&self.bytes)?;
        self.bytes.clear();
        Ok(())
    }
}

/// Why nothing, or no more, is printed.
enum Stop {
    Refused(Refusal),
    Io(io::Error),
}

impl From<Refusal> for Stop {
    fn from(refusal: Refusal) -> Stop {
        Stop::Refused(refusal)
    }
}

impl From<io::Error> for Stop {
    fn from(error: io::Error) -> Stop {
        Stop::Io(error)
    }
}

fn print<A: Access, W: Write>(file: &[u8], printer: &mut Printer<W>) -> Result<(), Stop> {
    let short = |i: usize| u16::from_le_bytes([file[2 * i], file[2 * i + 1]]);
    if file.len() < 6 {
        return Err(Refusal(15).into());
    }
    let [vertices, faces, n] = [0, 1, 2].map(|i| usize::from(short(i)));
    if !VERTICES.contains(&vertices) || !FACES.contains(&faces) {
        return Err(Refusal(1).into());
    }
    if file.len() != 6 + 13 * vertices + 8 * faces {
        return Err(Refusal(15).into());
    }
    let (positions, rest) = file[6..].split_at(12 * vertices);
    let (tags, indices) = rest.split_at(vertices);
    let positions: Vec<i32> =
        positions.chunks_exact(4).map(|bytes| i32::from_le_bytes([bytes[0], bytes[1], bytes[2], bytes[3]])).collect();
    let indices: Vec<u16> = indices.chunks_exact(2).map(|bytes| u16::from_le_bytes([bytes[0], bytes[1]])).collect();
    let mesh = Mesh { vertices, faces, positions: &positions, tags, indices: &indices };
    let mut twins = [0; 4 * MAX_FACES];
    let mut controls = [0; PATCH_VALUES * MAX_FACES];
    let mut exact = [0; PATCH_MARKS * MAX_FACES];
    let counts = patches::<A>(&mesh, &mut twins, &mut controls, &mut exact)?;
    if !STEPS.contains(&n) {
        return Err(Refusal(14).into());
    }
    printer.line([counts.vertices, counts.faces, counts.edges, counts.boundary].map(|count| count as i64))?;
    let mut line = [0; PLACES];
    for face in 0..faces {
        for b in 0..=n {
            let points = sample_line::<A>(&controls, face, n, b, &mut line)?;
            for (a, &[x, y, z]) in points.iter().enumerate() {
                printer.line([face as i64, a as i64, b as i64, x.into(), y.into(), z.into()])?;
            }
        }
    }
    Ok(())
}

/// The whole program.
pub fn run<A: Access>() -> io::Result<()> {
    let mut file = Vec::new();
    io::stdin().lock().read_to_end(&mut file)?;
    let mut printer = Printer { bytes: Vec::with_capacity(2 * STRETCH), out: io::stdout().lock() };
    match print::<A, _>(&file, &mut printer) {
        Err(Stop::Io(error)) => return Err(error),
        Err(Stop::Refused(Refusal(number))) => printer.bytes.extend(format!("refused {number}\n").bytes()),
        Ok(()) => {}
    }
    printer.flush()?;
    printer.out.flush()
}
