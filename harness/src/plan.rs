//! The plan and its text.

use crate::text::{write_line, write_number, Line, Lines, Refusal};

pub const WINDOW_MOST: i64 = 86_400_000;
pub const ROUNDS_MOST: i64 = 1_000;
pub const LAST_MOST: i64 = 1_000_000_000;
pub const JOBS_MOST: usize = 9;
pub const RUNNING_MOST: i64 = 86_400_000;
pub const PLACE_MOST: i64 = 172_800_000;
pub const BOUNDS_MOST: usize = 64;
pub const BOUND_MOST: i64 = 1_000_000_000;

#[derive(Clone, Debug, PartialEq, Eq)]
pub struct Plan {
    pub window: i64,
    pub rounds: i64,
    pub last: i64,
    pub jobs: Vec<Job>,
    pub bounds: Vec<Bound>,
}

#[derive(Clone, Debug, PartialEq, Eq)]
pub struct Job {
    pub min: i64,
    pub max: i64,
    pub release: i64,
    pub deadline: i64,
}

/// `bound=A,B,c` means A - B <= c.
#[derive(Clone, Debug, PartialEq, Eq)]
pub struct Bound {
    pub a: Event,
    pub b: Event,
    pub c: i64,
}

/// A start or finish of a job (from 0) in this window or the next.
#[derive(Clone, Copy, Debug, PartialEq, Eq)]
pub struct Event {
    pub next: bool,
    pub finish: bool,
    pub job: usize,
}

impl Event {
    /// The events in the order of time: the job's start and finish, those of the next window after all of this one.
    pub fn place(&self, jobs: usize) -> usize {
        usize::from(self.next) * 2 * jobs + 2 * self.job + usize::from(self.finish)
    }
}

/// Reads the plan that the text begins with.
pub fn read<'t>(lines: &mut Lines<'t>) -> Result<Plan, Refusal<'t>> {
    let window = lines.next_line()?.number(b"window=", 1, WINDOW_MOST)?;
    let rounds = lines.next_line()?.number(b"rounds=", 1, ROUNDS_MOST)?;
    let last = lines.next_line()?.number(b"last=", 1, LAST_MOST)?;
    let count = lines.next_line()?.number(b"jobs=", 1, JOBS_MOST as i64)?;
    let mut jobs = Vec::with_capacity(JOBS_MOST);
    for _ in 0..count {
        let min = lines.next_line()?.number(b"min=", 0, RUNNING_MOST)?;
        // 'A fault in min <= max is a number out of range on the `max` line.'
        let max = lines.next_line()?.number(b"max=", min, RUNNING_MOST)?;
        let release = lines.next_line()?.number(b"release=", 0, PLACE_MOST)?;
        let deadline = lines.next_line()?.number(b"deadline=", 0, PLACE_MOST)?;
        jobs.push(Job { min, max, release, deadline });
    }
    let count = lines.next_line()?.number(b"bounds=", 0, BOUNDS_MOST as i64)?;
    let mut bounds = Vec::with_capacity(count as usize);
    let mut given = Given([0; 4 * JOBS_MOST]);
    for _ in 0..count {
        bounds.push(read_bound(lines.next_line()?, jobs.len(), &mut given)?);
    }
    Ok(Plan { window, rounds, last, jobs, bounds })
}

/// The ordered pairs given so far, as a bit for each.
struct Given([u64; 4 * JOBS_MOST]);

impl Given {
    /// Takes the pair in, and tells whether it was there.
    fn take(&mut self, a: Event, b: Event) -> bool {
        let row = &mut self.0[a.place(JOBS_MOST)];
        let bit = 1 << b.place(JOBS_MOST);
        let there = *row & bit != 0;
        *row |= bit;
        there
    }
}

/// 'in a line the order is 1, 2, 3'
fn read_bound<'t>(line: Line<'t>, jobs: usize, given: &mut Given) -> Result<Bound, Refusal<'t>> {
    let [w1, k1, d1, b',', w2, k2, d2, b',', c @ ..] = line.value(b"bound=")? else {
        return Err(line.refused(1));
    };
    let (Some((a, a_there)), Some((b, b_there))) = (event(*w1, *k1, *d1, jobs), event(*w2, *k2, *d2, jobs)) else {
        return Err(line.refused(1));
    };
    let c = line.ranged(c, -BOUND_MOST, BOUND_MOST)?;
    if !a_there || !b_there {
        return Err(line.refused(2));
    }
    if a.next && b.next || a == b || given.take(a, b) {
        return Err(line.refused(3));
    }
    Ok(Bound { a, b, c })
}

/// The event of a window letter, a kind and a job digit, and whether the plan has such a job. None without the form.
fn event(window: u8, kind: u8, digit: u8, jobs: usize) -> Option<(Event, bool)> {
    let next = match window {
        b't' => false,
        b'n' => true,
        _ => return None,
    };
    let finish = match kind {
        b's' => false,
        b'f' => true,
        _ => return None,
    };
    if !digit.is_ascii_digit() {
        return None;
    }
    let number = usize::from(digit - b'0');
    let there = 1 <= number && number <= jobs;
    Some((Event { next, finish, job: number.saturating_sub(1) }, there))
}

/// The plan's text.
pub fn text(plan: &Plan) -> Vec<u8> {
    let mut out = Vec::new();
    write_line(&mut out, b"window=", plan.window);
    write_line(&mut out, b"rounds=", plan.rounds);
    write_line(&mut out, b"last=", plan.last);
    write_line(&mut out, b"jobs=", plan.jobs.len() as i64);
    for job in &plan.jobs {
        write_line(&mut out, b"min=", job.min);
        write_line(&mut out, b"max=", job.max);
        write_line(&mut out, b"release=", job.release);
        write_line(&mut out, b"deadline=", job.deadline);
    }
    write_line(&mut out, b"bounds=", plan.bounds.len() as i64);
    for bound in &plan.bounds {
        out.extend_from_slice(b"bound=");
        for event in [bound.a, bound.b] {
            write_event(&mut out, if event.next { b'n' } else { b't' }, event);
            out.push(b',');
        }
        write_number(&mut out, bound.c);
        out.push(b'\n');
    }
    out
}

/// An event under a window letter: t and n in a plan, p and t in a calendar.
pub fn write_event(out: &mut Vec<u8>, window: u8, event: Event) {
    out.extend_from_slice(&[window, if event.finish { b'f' } else { b's' }]);
    write_number(out, event.job as i64 + 1);
}
