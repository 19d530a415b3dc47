//! The processor's times of one call, and ratios where the C export is linked: both run in this process, in turns.

use crate::calendar;
use crate::export::{thread_nanos, Entry, ROOM};
use crate::generate::{settling, Dice};
use crate::plan::{self, Bound, Event, Job, Plan};

/// Batches of each entry, and how long one batch takes at least.
const BATCHES: usize = 41;
const BATCH_NANOS: u128 = 500_000;

/// A text, the bytes lent for its answer, and what is measured with them.
pub struct Task {
    pub name: String,
    pub text: Vec<u8>,
    pub room: usize,
}

/// The median of some measurements, and beside it the quartiles or the ends of the range.
#[derive(Clone, Copy, Debug)]
pub struct Spread {
    pub lower: f64,
    pub median: f64,
    pub upper: f64,
}

fn spread(mut values: Vec<f64>) -> Spread {
    values.sort_by(f64::total_cmp);
    let at = |quarter: usize| values[(values.len() - 1) * quarter / 4];
    Spread { lower: at(1), median: at(2), upper: at(3) }
}

/// The median of some medians, and their range.
pub fn range(mut medians: Vec<f64>) -> Spread {
    medians.sort_by(f64::total_cmp);
    let last = medians.len() - 1;
    Spread { lower: medians[0], median: medians[last / 2], upper: medians[last] }
}

/// Microseconds of one call of each entry, and the ratio of the second entry to the first, batch by batch.
pub fn measure(task: &Task, entries: &[Entry]) -> (Vec<Spread>, Option<Spread>) {
    let mut out = vec![0; task.room];
    let mut batch = |entry: Entry, calls: usize| {
        let begin = thread_nanos();
        for _ in 0..calls {
            std::hint::black_box(entry(std::hint::black_box(&task.text), &mut out));
        }
        thread_nanos() - begin
    };
    let calls: Vec<usize> = entries
        .iter()
        .map(|&entry| {
            let mut calls = 1;
            while batch(entry, calls) < BATCH_NANOS {
                calls *= 2;
            }
            calls
        })
        .collect();
    let mut times = vec![Vec::new(); entries.len()];
    for turn in 0..BATCHES {
        // Each is called first in its turn: what the one leaves in the caches and the predictors, the other finds.
        for at in (0..entries.len()).map(|place| (place + turn) % entries.len()) {
            times[at].push(batch(entries[at], calls[at]) as f64 / calls[at] as f64 / 1000.0);
        }
    }
    let ratios = (times.len() > 1).then(|| spread(times[0].iter().zip(&times[1]).map(|(first, second)| second / first).collect()));
    (times.into_iter().map(spread).collect(), ratios)
}

// ---- what is measured

pub fn tasks() -> Vec<Task> {
    let mut tasks = vec![reading()];
    tasks.extend((1..=plan::JOBS_MOST).map(verdict));
    tasks.extend([1, 3, 10, 100, 1000].map(rounds));
    tasks.extend([10, 100, 1000, 6000].map(steps));
    tasks.push(just_held(steps(1000)));
    tasks
}

/// A plan of nine jobs and 64 bounds that is read to its end and refused there, before the verdict.
fn reading() -> Task {
    let mut plan = named(9, 1).1;
    plan.bounds.clear();
    let event = |place: usize| Event { next: place >= 18, finish: place % 2 == 1, job: place % 18 / 2 };
    for at in 0..plan::BOUNDS_MOST {
        plan.bounds.push(Bound { a: event(at % 18), b: event(at / 18 + 18), c: -123_456_789 - at as i64 });
    }
    let mut text = plan::text(&plan);
    text.pop();
    Task { name: "read, jobs=9, bounds=64".into(), text, room: ROOM }
}

fn verdict(jobs: usize) -> Task {
    let (settled, plan) = named(jobs, 3);
    Task { name: format!("verdict, jobs={jobs}, bounds={}, settled={settled}", plan.bounds.len()), text: plan::text(&plan), room: ROOM }
}

/// The first random plan of so many jobs with a good number of bounds that settles in this round, or else in the latest found.
fn named(jobs: usize, round: i64) -> (i64, Plan) {
    let mut best: Option<(i64, Plan)> = None;
    for number in 0..3000 {
        let mut plan = settling(&mut Dice::of(3, number), jobs);
        plan.rounds = 1000;
        if plan.bounds.len() < jobs || plan.bounds.len() > 3 * jobs {
            continue;
        }
        if let Ok(calendar) = calendar::calendar(&plan) {
            if calendar.settled <= round && best.as_ref().is_none_or(|(settled, _)| *settled < calendar.settled) {
                best = Some((calendar.settled, plan));
            }
            if best.as_ref().is_some_and(|(settled, _)| *settled == round) {
                break;
            }
        }
    }
    best.expect("no plan settles")
}

/// Nine jobs whose first may start at most window - 1 after the start before it: a millisecond is lost in each round.
fn rounds(rounds: i64) -> Task {
    let job = |at: i64| Job { min: 500, max: 900, release: 1000 * at, deadline: 100_000 + 1000 * at };
    let start = |next: bool, job: usize| Event { next, finish: false, job };
    let mut bounds = vec![Bound { a: start(true, 0), b: start(false, 0), c: 99_999 }];
    for at in 1..9 {
        bounds.push(Bound { a: start(false, at), b: start(false, at - 1), c: 50_000 });
        bounds.push(Bound { a: start(true, at), b: start(false, at), c: 150_000 });
    }
    let plan = Plan { window: 100_000, rounds, last: 1000, jobs: (0..9).map(job).collect(), bounds };
    Task { name: format!("verdict, jobs=9, rounds={rounds}"), text: plan::text(&plan), room: ROOM }
}

/// Plan P with short windows, asked twice before each start.
fn steps(count: i64) -> Task {
    let job = Job { min: 0, max: 1, release: 0, deadline: 3 };
    let start = |next: bool| Event { next, finish: false, job: 0 };
    let bounds = vec![Bound { a: start(true), b: start(false), c: 4 }, Bound { a: start(false), b: start(true), c: -1 }];
    let plan = Plan { window: 2, rounds: 100, last: 1_000_000, jobs: vec![job], bounds };
    let mut text = plan::text(&plan);
    let mut run_text = |step: String| text.extend_from_slice(step.as_bytes());
    for step in 0..count {
        // Starts at the lower end: window j at (j-1) x 2.
        match step % 4 {
            0 | 1 => run_text("ask=offer\n".into()),
            2 => run_text("start=auto\n".into()),
            _ => run_text(format!("finish={}\n", step / 4 * 2)),
        }
    }
    Task { name: format!("session, {count} steps"), text, room: ROOM }
}

/// The same in the shortest slice that holds the answer, where the export measures it before it writes.
fn just_held(task: Task) -> Task {
    let room = crate::dispatch_output(&task.text).len();
    Task { name: format!("{}, slice just holds it", task.name), room, ..task }
}

#[cfg(test)]
mod tests {
    use super::*;

    #[test]
    fn a_range_is_of_all_medians() {
        let Spread { lower, median, upper } = range(vec![4.0, 1.0, 5.0, 2.0, 3.0]);
        assert_eq!((lower, median, upper), (1.0, 3.0, 5.0));
    }

    #[test]
    fn tasks_are_what_they_say() {
        for task in tasks() {
            assert!(task.text.len() <= crate::text::TEXT_MOST, "{}", task.name);
            let answers = String::from_utf8(crate::dispatch_output(&task.text)).unwrap();
            let lines = answers.lines().count();
            assert_eq!(task.room == answers.len(), task.name.ends_with("just holds it"), "{}", task.name);
            if let Some((count, _)) = task.name.strip_prefix("session, ").and_then(|name| name.split_once(" steps")) {
                assert_eq!(lines, count.parse::<usize>().unwrap());
                assert!(!answers.contains("refused"), "{}", task.name);
            } else if task.name.contains("rounds=") {
                assert!(answers.starts_with("refused=5,"), "{}: {answers}", task.name);
            } else if task.name.starts_with("verdict") {
                assert_eq!(answers, "", "{}", task.name);
            } else {
                assert_eq!(answers, "refused=1,105\n");
            }
        }
    }
}
