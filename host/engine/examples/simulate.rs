//! Runs a bath file and prints its report: `cargo run --example simulate -- FILE`.
//!
//! The status is 0 where the report is written, 2 where the file is refused, and 1 where it cannot be
//! read or the report cannot be written; then a sentence on standard error says why.

use std::error::Error;
use std::io::{self, BufWriter, Write};
use std::process::ExitCode;

use engine::{
    read_file, read_record, run, totals, GridBuffers, Header, Refusal, HEADER_LENGTH, RECORD_LENGTH,
};

/// Runs the records of an accepted file and writes the report.
fn report(header: Header, records: &mut [u8], out: &mut impl Write) -> Result<(), Box<dyn Error>> {
    let nodes = header.size.nx * header.size.ny;
    let (mut mass, mut x, mut y) = (vec![0; nodes], vec![0; nodes], vec![0; nodes]);
    let mut grid = GridBuffers {
        mass: &mut mass,
        x: &mut x,
        y: &mut y,
    };
    let answer = run(header.settings(), header.steps, records, &mut grid);
    let (number, place) = answer
        .refusal
        .map_or((0, 0), |refusal| (refusal.limit.number(), refusal.place));
    writeln!(out, "done {} refusal {number} at {place}", answer.completed)?;
    let t = totals(header.size, records)?;
    writeln!(
        out,
        "mass {} px {} py {} spin {} motion {} marks {}",
        t.mass, t.px, t.py, t.angular_momentum, t.motion, t.marks
    )?;
    for record in records.chunks(RECORD_LENGTH) {
        let p = read_record(record)?;
        writeln!(
            out,
            "{} {} {} {} {} {} {} {} {} {} {}",
            p.identifier, p.mass, p.x, p.y, p.vx, p.vy, p.bxx, p.bxy, p.byx, p.byy, p.marks
        )?;
    }
    Ok(())
}

/// Writes what a file comes to; the refusal, if it is refused.
fn simulate(file: &[u8], out: &mut impl Write) -> Result<Option<Refusal>, Box<dyn Error>> {
    let refused = match read_file(file) {
        Ok(header) => {
            report(header, &mut file[HEADER_LENGTH..].to_vec(), out)?;
            None
        }
        Err(refusal) => {
            let Refusal { limit, place } = refusal;
            writeln!(out, "refused {} at {place}", limit.number())?;
            Some(refusal)
        }
    };
    out.flush()?;
    Ok(refused)
}

/// The status, and the sentence that goes with it if it is not 0.
fn ended() -> (u8, String) {
    let Some(path) = std::env::args_os().nth(1) else {
        return (1, "which bath file?".into());
    };
    let file = match std::fs::read(&path) {
        Ok(file) => file,
        Err(why) => return (1, format!("{} cannot be read: {why}", path.display())),
    };
    match simulate(&file, &mut BufWriter::new(io::stdout().lock())) {
        Ok(None) => (0, String::new()),
        Ok(Some(refusal)) => (2, format!("{}: {refusal}", path.display())),
        Err(why) => (1, format!("the report cannot be written: {why}")),
    }
}

fn main() -> ExitCode {
    let (status, sentence) = ended();
    if status != 0 {
        // Where standard error is closed too, the status still tells.
        let _ = writeln!(io::stderr(), "simulate: {sentence}");
    }
    status.into()
}
