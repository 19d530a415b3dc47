//! The verdict on a plan, its calendar, and the calendar's text.

use crate::elimination::{Elimination, Table, Verdict, NONE};
use crate::plan::{write_event, Event, Plan};
use crate::text::{write_line, write_number, Refusal};

pub struct Calendar {
    pub settled: i64,
    pub places: Vec<Place>,
}

/// What bounds a job's start: low and high on its own window's clock, and terms that name earlier events.
pub struct Place {
    pub low: i64,
    pub high: i64,
    pub at_least: Vec<Term>,
    pub at_most: Vec<Term>,
}

/// start >= E + c, or start <= E + c. The event is counted from the previous window's first start, in the order of time.
#[derive(Clone, Copy)]
pub struct Term {
    pub event: usize,
    pub c: i64,
}

/// The plan's calendar, or the refusal by 4 or 5.
pub fn calendar(plan: &Plan) -> Result<Calendar, Refusal<'static>> {
    match Elimination::of(plan).verdict() {
        Verdict::NoStrategy(k) => Err(Refusal::plain(4, k)),
        Verdict::Unsettled => Err(Refusal::plain(5, plan.rounds)),
        Verdict::Settled(settled, table) => {
            let jobs = plan.jobs.len();
            let places = (0..jobs).map(|job| place(&table, 1 + 2 * (jobs + job), plan.window)).collect();
            Ok(Calendar { settled, places })
        }
    }
}

fn place(table: &Table, start: usize, window: i64) -> Place {
    let terms = |sign: i64, weight: &dyn Fn(usize) -> i32| {
        let kept = |node: &usize| weight(*node) != NONE;
        (1..start).filter(kept).map(|node| Term { event: node - 1, c: sign * i64::from(weight(node)) }).collect()
    };
    Place {
        low: -i64::from(table[start][0]) - window,
        high: i64::from(table[0][start]) - window,
        at_least: terms(-1, &|node| table[start][node]),
        at_most: terms(1, &|node| table[node][start]),
    }
}

impl Calendar {
    /// What the calendar program prints.
    pub fn text(&self) -> Vec<u8> {
        let mut out = Vec::new();
        write_line(&mut out, b"settled=", self.settled);
        for (job, place) in self.places.iter().enumerate() {
            write_line(&mut out, b"job=", job as i64 + 1);
            write_line(&mut out, b"low=", place.low);
            write_line(&mut out, b"high=", place.high);
            self.write_terms(&mut out, b"atleast=", &place.at_least);
            self.write_terms(&mut out, b"atmost=", &place.at_most);
        }
        out
    }

    fn write_terms(&self, out: &mut Vec<u8>, key: &[u8], terms: &[Term]) {
        let events = 2 * self.places.len();
        for term in terms {
            let event = Event { next: false, finish: term.event % 2 == 1, job: term.event % events / 2 };
            out.extend_from_slice(key);
            write_event(out, if term.event < events { b'p' } else { b't' }, event);
            out.push(b',');
            write_number(out, term.c);
            out.push(b'\n');
        }
    }
}
