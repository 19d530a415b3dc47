//! The differential test: an implementation against this one, on random plans, sessions and damaged texts.

use std::collections::BTreeMap;
use std::sync::atomic::{AtomicU64, Ordering};
use std::sync::Mutex;
use std::thread;

use crate::generate::{case, Case};
use crate::subject::{Own, Subject};

/// After so many differences the test stops.
const ENOUGH: usize = 5;

/// How often each kind of answer was compared: `settled=`, `offer=` .., and each number of refusal.
pub type Counts = BTreeMap<String, u64>;

pub struct Compared {
    pub cases: u64,
    pub counts: Counts,
    /// The numbers of cases that differ, with what differs.
    pub differences: Vec<(u64, String)>,
}

/// Compares so many cases of a seed, on all processors.
pub fn compare(subject: &dyn Subject, seed: u64, count: u64) -> Compared {
    let next = AtomicU64::new(0);
    let all = Mutex::new(Compared { cases: 0, counts: Counts::new(), differences: Vec::new() });
    let work = || {
        let mut counts = Counts::new();
        let mut cases = 0;
        loop {
            let number = next.fetch_add(1, Ordering::Relaxed);
            if number >= count || all.lock().unwrap().differences.len() >= ENOUGH {
                break;
            }
            if let Some(why) = compare_case(subject, &case(seed, number), &mut counts) {
                all.lock().unwrap().differences.push((number, why));
            }
            cases += 1;
        }
        let mut all = all.lock().unwrap();
        all.cases += cases;
        for (kind, count) in counts {
            *all.counts.entry(kind).or_default() += count;
        }
    };
    thread::scope(|scope| {
        for _ in 0..thread::available_parallelism().map_or(1, usize::from) {
            scope.spawn(work);
        }
    });
    all.into_inner().unwrap()
}

/// What differs on this case, if anything does. Where there is no calendar program, a plan is a session without steps.
fn compare_case(subject: &dyn Subject, case: &Case, counts: &mut Counts) -> Option<String> {
    let calendar = if case.session { None } else { subject.calendar(&case.text) };
    let expected = if calendar.is_some() { Own.calendar(&case.text)?.ok()? } else { Own.dispatch(&case.text).ok()? };
    count_kinds(&expected, counts);
    match calendar.unwrap_or_else(|| subject.dispatch(&case.text)) {
        Err(error) => Some(error.to_string()),
        Ok(output) => (output != expected).then(|| difference(&expected, &output)),
    }
}

fn count_kinds(output: &[u8], counts: &mut Counts) {
    if output.is_empty() {
        *counts.entry("(empty)".into()).or_default() += 1;
    }
    for line in String::from_utf8_lossy(output).lines() {
        *counts.entry(kind(line).into()).or_default() += 1;
    }
}

fn kind(line: &str) -> &str {
    let end = match line.split_once('=') {
        Some(("settled", _)) => None,
        Some(("refused", _)) => line.find(','),
        _ => line.find('='),
    };
    &line[..end.unwrap_or(line.len())]
}

/// The first lines that differ.
fn difference(expected: &[u8], output: &[u8]) -> String {
    let (expected, output) = (String::from_utf8_lossy(expected), String::from_utf8_lossy(output));
    let (mut ours, mut theirs) = (expected.split_inclusive('\n'), output.split_inclusive('\n'));
    for number in 1.. {
        let (a, b) = (ours.next(), theirs.next());
        if a != b {
            return format!("line {number} of the answer is {b:?} where {a:?} is expected");
        }
        if a.is_none() {
            break;
        }
    }
    "bytes that are no text differ".into()
}

#[cfg(test)]
mod tests {
    use super::*;
    use std::io;

    /// Every kind of answer that a session or plan can get is among the first cases. 11 cannot come up in a text.
    #[test]
    fn cases_have_every_kind_of_answer() {
        let compared = compare(&Own, 1, 3000);
        assert_eq!((compared.cases, compared.differences), (3000, vec![]));
        let refusals: Vec<String> = (1..=10).map(|number| format!("refused={number}")).collect();
        for kind in refusals.iter().map(String::as_str).chain(["(empty)", "settled=1", "settled=2", "atleast", "atmost", "offer", "started", "final"])
        {
            assert!(compared.counts.get(kind).is_some_and(|&count| count >= 5), "{kind}: {:?}", compared.counts);
        }
    }

    /// One line number is wrong.
    struct NearlyRight;

    impl Subject for NearlyRight {
        fn calendar(&self, text: &[u8]) -> Option<io::Result<Vec<u8>>> {
            Own.calendar(text)
        }

        fn dispatch(&self, text: &[u8]) -> io::Result<Vec<u8>> {
            let answers = crate::dispatch_output(text);
            Ok(String::from_utf8_lossy(&answers).replace("refused=3,10\n", "refused=3,11\n").into_bytes())
        }
    }

    #[test]
    fn a_difference_is_told() {
        let compared = compare(&NearlyRight, 1, 20_000);
        let (number, why) = &compared.differences[0];
        assert!(why.contains("refused=3,1"), "{why}");
        assert!(case(1, *number).session);
    }
}
