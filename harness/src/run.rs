//! Runs: offers, starts and finishes on the run's clock, and the steps of a session.

use crate::calendar::{Calendar, Term};
use crate::elimination::SIDE;
use crate::plan::Plan;
use crate::text::{write_number, Line, Lines, Refusal};

/// The range of T.
pub const TIME_MOST: i64 = 100_000_000_000_000_000;

pub struct Run<'p> {
    plan: &'p Plan,
    calendar: &'p Calendar,
    /// The window and the job (from 0) that the run waits for or runs.
    pub window: i64,
    pub job: usize,
    running_since: Option<i64>,
    /// The previous window's events in the order of time, then this window's so far.
    times: [i64; SIDE],
}

#[derive(Clone, Copy, Debug, PartialEq, Eq)]
pub struct Offer {
    pub low: i64,
    pub high: i64,
}

pub enum Step {
    Ask,
    Start(i64),
    StartAuto,
    Finish(i64),
}

/// The answer to an accepted step; window, job (from 0) and time.
pub enum Answer {
    Offer(Offer),
    Started(i64, usize, i64),
    Final(i64, usize, i64),
}

type Done<T> = Result<T, Refusal<'static>>;

impl<'p> Run<'p> {
    pub fn new(plan: &'p Plan, calendar: &'p Calendar) -> Self {
        Run { plan, calendar, window: 1, job: 0, running_since: None, times: [0; SIDE] }
    }

    /// A run in its first window, or in its second after the given one; (start, finish) pairs, each on its own window's clock.
    pub fn at(plan: &'p Plan, calendar: &'p Calendar, previous: Option<&[(i64, i64)]>, this: &[(i64, i64)]) -> Self {
        let mut run = Run::new(plan, calendar);
        let events = 2 * plan.jobs.len();
        let mut put = |from: usize, times: &[(i64, i64)], begins: i64| {
            for (job, (start, finish)) in times.iter().enumerate() {
                run.times[from + 2 * job] = begins + start;
                run.times[from + 2 * job + 1] = begins + finish;
            }
        };
        put(0, previous.unwrap_or(&[]), 0);
        put(events, this, if previous.is_some() { plan.window } else { 0 });
        run.window = if previous.is_some() { 2 } else { 1 };
        run.job = this.len();
        run
    }

    pub fn is_over(&self) -> bool {
        self.window > self.plan.last
    }

    pub fn running_since(&self) -> Option<i64> {
        self.running_since
    }

    /// From the greatest lower bound to the least upper bound, or a refusal by 10, 6 or 11.
    pub fn offer(&self) -> Done<Offer> {
        if self.is_over() {
            return Err(Refusal::plain(10, 0));
        }
        if self.running_since.is_some() {
            return Err(Refusal::plain(6, 0));
        }
        let begins = (self.window - 1) * self.plan.window;
        let place = &self.calendar.places[self.job];
        let mut offer = Offer { low: begins + place.low, high: begins + place.high };
        for term in self.terms(&place.at_least) {
            offer.low = offer.low.max(self.times[term.event] + term.c);
        }
        for term in self.terms(&place.at_most) {
            offer.high = offer.high.min(self.times[term.event] + term.c);
        }
        if offer.low > offer.high {
            return Err(Refusal::plain(11, 0));
        }
        Ok(offer)
    }

    /// 'The terms of the first window are the same, without those that name the previous window.'
    fn terms<'t>(&self, terms: &'t [Term]) -> impl Iterator<Item = &'t Term> {
        let first = if self.window == 1 { 2 * self.plan.jobs.len() } else { 0 };
        terms.iter().filter(move |term| term.event >= first)
    }

    /// This job's start among the times.
    fn place(&self) -> usize {
        2 * (self.plan.jobs.len() + self.job)
    }

    fn begin(&mut self, t: i64) -> Answer {
        let place = self.place();
        self.times[place] = t;
        self.running_since = Some(t);
        Answer::Started(self.window, self.job, t)
    }

    pub fn start(&mut self, t: i64) -> Done<Answer> {
        let offer = self.offer()?;
        if t < offer.low || offer.high < t {
            return Err(Refusal::plain(8, 0));
        }
        Ok(self.begin(t))
    }

    pub fn start_auto(&mut self) -> Done<Answer> {
        let offer = self.offer()?;
        if offer.low < 0 || TIME_MOST < offer.low {
            return Err(Refusal::plain(2, 0));
        }
        Ok(self.begin(offer.low))
    }

    pub fn finish(&mut self, t: i64) -> Done<Answer> {
        let Some(start) = self.running_since else {
            return Err(Refusal::plain(7, 0));
        };
        let job = &self.plan.jobs[self.job];
        if t < start + job.min || start + job.max < t {
            return Err(Refusal::plain(9, 0));
        }
        let answer = Answer::Final(self.window, self.job, t);
        let place = self.place();
        self.times[place + 1] = t;
        self.running_since = None;
        self.job += 1;
        if self.job == self.plan.jobs.len() {
            let events = 2 * self.job;
            self.times.copy_within(events..2 * events, 0);
            self.job = 0;
            self.window += 1;
        }
        Ok(answer)
    }

    pub fn take(&mut self, step: &Step) -> Done<Answer> {
        match *step {
            Step::Ask => self.offer().map(Answer::Offer),
            Step::Start(t) => self.start(t),
            Step::StartAuto => self.start_auto(),
            Step::Finish(t) => self.finish(t),
        }
    }
}

impl Step {
    pub fn read<'t>(line: Line<'t>) -> Result<Step, Refusal<'t>> {
        match line.bytes {
            b"ask=offer" => Ok(Step::Ask),
            b"start=auto" => Ok(Step::StartAuto),
            [b's', ..] => line.number(b"start=", 0, TIME_MOST).map(Step::Start),
            _ => line.number(b"finish=", 0, TIME_MOST).map(Step::Finish),
        }
    }
}

impl Answer {
    pub fn print(&self, out: &mut Vec<u8>) {
        match *self {
            Answer::Offer(offer) => {
                out.extend_from_slice(b"offer=");
                write_number(out, offer.low);
                out.push(b',');
                write_number(out, offer.high);
            }
            Answer::Started(window, job, t) => print_event(out, b"started=", window, job, t),
            Answer::Final(window, job, t) => print_event(out, b"final=", window, job, t),
        }
        out.push(b'\n');
    }
}

fn print_event(out: &mut Vec<u8>, key: &[u8], window: i64, job: usize, t: i64) {
    out.extend_from_slice(key);
    write_number(out, window);
    out.push(b',');
    write_number(out, job as i64 + 1);
    out.push(b',');
    write_number(out, t);
}

/// Answers the steps that are left in a session, up to the first that ends it.
pub fn answer_steps(run: &mut Run, lines: &mut Lines, out: &mut Vec<u8>) {
    while !lines.is_empty() {
        let refusal = match lines.next_line().and_then(Step::read) {
            Err(refusal) => refusal,
            Ok(step) => match run.take(&step) {
                Err(refusal) => refusal,
                Ok(answer) => {
                    answer.print(out);
                    continue;
                }
            },
        };
        refusal.print(out);
        if refusal.ends_session() {
            return;
        }
    }
}
