//! A second implementation of document 01, written from the document and its readings, and what is compared with it.
#![deny(unsafe_code)]

pub mod bench;
pub mod calendar;
pub mod compare;
pub mod demand;
pub mod elimination;
pub mod export;
pub mod game;
pub mod generate;
pub mod picture;
pub mod plan;
pub mod run;
pub mod subject;
pub mod text;
pub mod vectors;

use calendar::Calendar;
use plan::Plan;
use run::Run;
use text::{Lines, Refusal};

/// The calendar program: what it prints for this standard input.
pub fn calendar_output(input: &[u8]) -> Vec<u8> {
    printed(judged(input, true).map(|(_, calendar, _)| calendar.text()))
}

/// The dispatch program: what it prints for this standard input.
pub fn dispatch_output(input: &[u8]) -> Vec<u8> {
    printed(judged(input, false).map(|(plan, calendar, mut lines)| {
        let mut out = Vec::with_capacity(2 * input.len());
        run::answer_steps(&mut Run::new(&plan, &calendar), &mut lines, &mut out);
        out
    }))
}

/// As the C export: the length of the answers written to `out`, or -12 if they are longer.
pub fn session(input: &[u8], out: &mut [u8]) -> i64 {
    let answers = dispatch_output(input);
    match out.get_mut(..answers.len()) {
        None => -12,
        Some(place) => {
            place.copy_from_slice(&answers);
            answers.len() as i64
        }
    }
}

/// Reads a plan, alone in its text or followed by steps, and gives its calendar.
fn judged(input: &[u8], alone: bool) -> Result<(Plan, Calendar, Lines<'_>), Refusal<'_>> {
    let mut lines = Lines::of(input)?;
    let plan = plan::read(&mut lines)?;
    if alone {
        lines.end()?;
    }
    let calendar = calendar::calendar(&plan)?;
    Ok((plan, calendar, lines))
}

/// 'A refused plan prints its one line.'
fn printed(output: Result<Vec<u8>, Refusal>) -> Vec<u8> {
    output.unwrap_or_else(|refusal| {
        let mut out = Vec::new();
        refusal.print(&mut out);
        out
    })
}
