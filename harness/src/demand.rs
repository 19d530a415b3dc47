//! Demand 3: verdict, K and offers of an implementation against the exhaustive search.

use std::slice;

use crate::calendar;
use crate::game::{Game, Outcome, Times};
use crate::generate::{tiny, Dice};
use crate::plan::{self, Plan};
use crate::run::{Offer, Run};
use crate::subject::Subject;

#[derive(Default, Debug)]
pub struct Counts {
    pub plans: u64,
    pub lasting: u64,
    pub without_strategy: u64,
    pub latest_round: i64,
    pub latest_k: i64,
    /// Verdicts compared, other rounds among them.
    pub verdicts: u64,
    /// Positions of plays at which the whole offer of this crate's own run was compared, whatever the implementation.
    pub own_offers: u64,
    /// Answers of the implementation's sessions that were made from the search alone.
    pub answers: u64,
}

/// Plays of a plan that are compared as sessions.
const SESSIONS: usize = 5;

/// Compares on so many tiny plans of a seed.
pub fn check_many(seed: u64, count: u64, subject: &dyn Subject) -> Result<Counts, String> {
    let mut counts = Counts::default();
    let mut number = 0;
    while counts.plans < count {
        let mut dice = Dice::of(seed, number);
        let plan = tiny(&mut dice);
        number += 1;
        if let Some(game) = Game::of(&plan) {
            let text = || String::from_utf8_lossy(&plan::text(&plan)).into_owned();
            check(&mut dice, &plan, &game, subject, &mut counts).map_err(|why| format!("{why}\n{}", text()))?;
        }
    }
    Ok(counts)
}

fn check(dice: &mut Dice, plan: &Plan, game: &Game, subject: &dyn Subject, counts: &mut Counts) -> Result<(), String> {
    counts.plans += 1;
    match game.solve() {
        Outcome::NoStrategy(k) => {
            counts.without_strategy += 1;
            counts.latest_k = counts.latest_k.max(k);
            no_strategy(dice, plan, k, subject, counts)
        }
        Outcome::Lasting { after, lasting } => {
            counts.lasting += 1;
            settled(dice, plan, after, subject, counts)?;
            own_offers(plan, game, &lasting, counts)?;
            (0..SESSIONS).try_for_each(|_| played(dice, plan, game, &lasting, subject, counts))
        }
    }
}

/// The first line that is printed for the plan with so many rounds; `settled` alone where no round is given.
fn verdict(plan: &Plan, rounds: i64, subject: &dyn Subject, counts: &mut Counts) -> Result<String, String> {
    let text = plan::text(&Plan { rounds, ..plan.clone() });
    counts.verdicts += 1;
    let broken = |error: std::io::Error| error.to_string();
    let answer = subject.dispatch(&text).map_err(broken)?;
    let Some(whole) = subject.calendar(&text) else {
        return Ok(if answer.is_empty() { "settled".into() } else { line(&answer) });
    };
    let whole = line(&whole.map_err(broken)?);
    if whole.starts_with("settled") != answer.is_empty() || !answer.is_empty() && line(&answer) != whole {
        return Err(format!("the two programs differ: {whole} and {}", line(&answer)));
    }
    Ok(whole)
}

fn line(output: &[u8]) -> String {
    String::from_utf8_lossy(output).lines().next().unwrap_or("").into()
}

/// K is the game's. With fewer rounds the answer is unsettled, except that K - 1 rounds may do.
fn no_strategy(dice: &mut Dice, plan: &Plan, k: i64, subject: &dyn Subject, counts: &mut Counts) -> Result<(), String> {
    let known = format!("refused=4,{k}");
    expect(slice::from_ref(&known), verdict(plan, 1000, subject, counts)?)?;
    let rounds = dice.between(1, k);
    let unsettled = format!("refused=5,{rounds}");
    let answers: &[String] = if rounds >= k {
        &[known]
    } else if rounds == k - 1 {
        &[known, unsettled]
    } else {
        &[unsettled]
    };
    expect(answers, verdict(plan, rounds, subject, counts)?)
}

/// The plan settles, and not in a round after which the strategies still change.
fn settled(dice: &mut Dice, plan: &Plan, after: i64, subject: &dyn Subject, counts: &mut Counts) -> Result<(), String> {
    let answer = verdict(plan, 1000, subject, counts)?;
    if answer == "settled" {
        return Ok(());
    }
    let Some(round) = answer.strip_prefix("settled=").and_then(|round| round.parse().ok()) else {
        return Err(format!("the search finds a strategy for ever, the verdict is {answer}"));
    };
    if round < after + 1 {
        return Err(format!("{answer}, but strategies still change in round {after}"));
    }
    counts.latest_round = counts.latest_round.max(round);
    let rounds = dice.between(1, round);
    let other = if rounds == round { answer } else { format!("refused=5,{rounds}") };
    expect(&[other], verdict(plan, rounds, subject, counts)?)
}

fn expect(answers: &[String], answer: String) -> Result<(), String> {
    if answers.contains(&answer) {
        return Ok(());
    }
    Err(format!("the search gives {answers:?}, the verdict is {answer}"))
}

/// Along all plays, the offer of this crate's own run holds each millisecond that the search finds, and no other; none is empty.
fn own_offers(plan: &Plan, game: &Game, lasting: &Vec<bool>, counts: &mut Counts) -> Result<(), String> {
    let calendar = calendar::calendar(plan).map_err(|refusal| format!("{refusal:?}"))?;
    game.visit_positions(lasting, &mut |previous, this, starts| {
        counts.own_offers += 1;
        let begins = if previous.is_some() { plan.window } else { 0 };
        let (Some(low), Some(high)) = (starts.first(), starts.last()) else {
            return Err(format!("no start is left after {previous:?} and {this:?}"));
        };
        let found = Offer { low: begins + low, high: begins + high };
        match Run::at(plan, &calendar, previous, this).offer() {
            Ok(offer) if offer == found => Ok(()),
            other => Err(format!("the search finds {found:?}, the run {other:?} after {previous:?} and {this:?}")),
        }
    })
}

/// A session along one play, its answers made from the search alone: each offer, a start and a finish a millisecond outside at either end where
/// it has a time to write, and the start and the finish of the play.
fn played(dice: &mut Dice, plan: &Plan, game: &Game, lasting: &Vec<bool>, subject: &dyn Subject, counts: &mut Counts) -> Result<(), String> {
    let mut text = String::from_utf8_lossy(&plan::text(plan)).into_owned();
    let mut answers = String::new();
    let mut previous: Option<Times> = None;
    for window in 1..=20 {
        let begins = (window - 1) * plan.window;
        let mut this = Vec::new();
        for (job, times) in plan.jobs.iter().enumerate() {
            let starts = game.on_offer(previous.as_deref(), &this, lasting).ok_or("the starts on offer have a gap")?;
            let (low, high) = (starts[0], starts[starts.len() - 1]);
            let start = if dice.percent(60) { dice.choose(&[low, high]) } else { dice.choose(&starts) };
            let finish = start + if dice.percent(60) { dice.choose(&[times.min, times.max]) } else { dice.between(times.min, times.max) };
            this.push((start, finish));
            let job = job + 1;
            let mut step = |step: String, answer: String| {
                text += &(step + "\n");
                answers += &(answer + "\n");
            };
            step("ask=offer".into(), format!("offer={},{}", begins + low, begins + high));
            for t in [begins + low - 1, begins + high + 1].into_iter().filter(|&t| t >= 0) {
                step(format!("start={t}"), "refused=8,0".into());
            }
            let t = begins + start;
            step(if start == low { "start=auto".into() } else { format!("start={t}") }, format!("started={window},{job},{t}"));
            for t in [t + times.min - 1, t + times.max + 1].into_iter().filter(|&t| t >= 0) {
                step(format!("finish={t}"), "refused=9,0".into());
            }
            let t = begins + finish;
            step(format!("finish={t}"), format!("final={window},{job},{t}"));
        }
        previous = Some(this);
    }
    counts.answers += answers.lines().count() as u64;
    let given = subject.dispatch(text.as_bytes()).map_err(|error| error.to_string())?;
    if given != answers.as_bytes() {
        return Err(format!("a session differs from the search:\n{text}\n{}", String::from_utf8_lossy(&given)));
    }
    Ok(())
}
