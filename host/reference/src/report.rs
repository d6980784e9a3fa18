//! The program's text: a bath file in, the lines of document 01 out.

use std::fmt::Write;

use crate::bath_file::{read_file, Header};
use crate::grid::Grid;
use crate::limits::HEADER_LENGTH;
use crate::particle::Particle;
use crate::particle_set::{particles, Totals};
use crate::refusal::Refusal;
use crate::simulation::{run_by, RunAnswer};
use crate::transfer::Sums;

/// Everything the program prints for this input.
pub fn program(input: &[u8]) -> String {
    program_by(Sums::Literal, input)
}

/// The program's text by the given sums.
pub fn program_by(sums: Sums, input: &[u8]) -> String {
    match read_file(input) {
        Err(Refusal { number, place }) => format!("refused {number} at {place}\n"),
        Ok(header) => run_report(sums, header, input[HEADER_LENGTH..].to_vec()),
    }
}

/// Runs an accepted file's records and reports.
fn run_report(sums: Sums, header: Header, mut records: Vec<u8>) -> String {
    let Header {
        settings, steps, ..
    } = header;
    let mut grid = Grid::zero(settings.size.nodes());
    let answer = run_by(sums, settings, steps, &mut records, &mut grid.buffers());
    let particles = particles(settings.size, &records).expect("a run leaves an accepted set");
    report(answer, &particles)
}

/// The lines for a run's answer and the particles it left.
pub fn report(answer: RunAnswer, particles: &[Particle]) -> String {
    let Refusal { number, place } = answer.refusal.unwrap_or(Refusal::at(0, 0));
    let [mass, px, py, spin, motion, marks] = Totals::of(particles).values();
    let mut text = format!(
        "done {} refusal {number} at {place}\n\
         mass {mass} px {px} py {py} spin {spin} motion {motion} marks {marks}\n",
        answer.completed
    );
    for particle in particles {
        let fields = particle.fields().map(|field| field.to_string());
        writeln!(text, "{}", fields.join(" ")).expect("writing to a string");
    }
    text
}
