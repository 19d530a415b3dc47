//! What a strategy is, by exhaustive search over tiny plans and with no word of elimination.
//!
//! Starts are chosen one by one and running times are chosen against them, both over whole numbers; a strategy up to the
//! end of window k is a choice of starts under which every bound with both events in the first k windows holds. Only the
//! last two windows matter for what is still to come, so the search keeps, for each way a window can have gone, whether
//! so many windows more can be played after it. These sets only shrink; once one repeats, it is the set for ever.

use std::collections::HashSet;

use crate::plan::{Event, Plan};

/// Start and finish of each job so far, on the window's own clock.
pub type Times = Vec<(i64, i64)>;

/// What is done at a position: the previous window if there is one, this one so far, and the starts on offer.
pub type Visit<'v> = dyn FnMut(Option<&[(i64, i64)]>, &[(i64, i64)], &[i64]) -> Result<(), String> + 'v;

/// More windows than this are not searched.
const WINDOWS_MOST: i64 = 5_000;

pub struct Game<'p> {
    plan: &'p Plan,
}

/// For each way a window can have gone, by its number, whether enough can be played after it.
type Lasting = Vec<bool>;

pub enum Outcome {
    /// No strategy up to the end of this window, and one for each smaller number of windows.
    NoStrategy(i64),
    /// Strategies for every number of windows; `after` is the least number of windows to come from which on the set stays the same.
    Lasting { after: i64, lasting: Lasting },
}

impl<'p> Game<'p> {
    /// The game of a plan, if it is tiny.
    pub fn of(plan: &'p Plan) -> Option<Self> {
        let game = Game { plan };
        (game.windows() <= WINDOWS_MOST).then_some(game)
    }

    /// How many ways a window can go, with each start in release..=deadline and each running time in its limits.
    fn windows(&self) -> i64 {
        let ways = self.plan.jobs.iter().map(|job| (job.deadline - job.release + 1).max(0) * (job.max - job.min + 1));
        ways.product()
    }

    /// The number of a whole window among `windows`.
    fn number(&self, window: &[(i64, i64)]) -> usize {
        let mut number = 0;
        for (job, (start, finish)) in self.plan.jobs.iter().zip(window) {
            number = number * (job.deadline - job.release + 1) + (start - job.release);
            number = number * (job.max - job.min + 1) + (finish - start - job.min);
        }
        number as usize
    }

    /// The window of a number.
    fn window(&self, number: usize) -> Times {
        let mut rest = number as i64;
        let mut window = Vec::new();
        for job in self.plan.jobs.iter().rev() {
            let (starts, runnings) = (job.deadline - job.release + 1, job.max - job.min + 1);
            let running = job.min + rest % runnings;
            rest /= runnings;
            let start = job.release + rest % starts;
            rest /= starts;
            window.push((start, start + running));
        }
        window.reverse();
        window
    }

    /// Every bound of the plan whose events lie in this window so far, or in it and the previous one, holds.
    fn kept(&self, previous: Option<&[(i64, i64)]>, this: &[(i64, i64)]) -> bool {
        let window = self.plan.window;
        let in_place = this.iter().zip(&self.plan.jobs).all(|((s, f), job)| job.release <= *s && *f <= job.deadline);
        let in_order = this.windows(2).all(|pair| pair[0].1 <= pair[1].0);
        let after_previous = match (previous.and_then(<[_]>::last), this.first()) {
            (Some((_, finish)), Some((start, _))) => finish - window <= *start,
            _ => true,
        };
        in_place && in_order && after_previous && self.given_kept(previous, this)
    }

    fn given_kept(&self, previous: Option<&[(i64, i64)]>, this: &[(i64, i64)]) -> bool {
        let seen = |event: Event, times: &[(i64, i64)]| {
            let &(start, finish) = times.get(event.job)?;
            Some(if event.finish { finish } else { start })
        };
        self.plan.bounds.iter().all(|bound| {
            let time = |event: Event| match (bound.a.next || bound.b.next, event.next) {
                (false, _) => seen(event, this),
                (true, true) => seen(event, this).map(|t| t + self.plan.window),
                (true, false) => seen(event, previous?),
            };
            match (time(bound.a), time(bound.b)) {
                (Some(a), Some(b)) => a - b <= bound.c,
                _ => true,
            }
        })
    }

    /// There is a start for the next job, for every running time a start for the one after it, and so on to the window's
    /// end, such that all is kept and the window is one of `lasting`.
    fn playable(&self, previous: Option<&[(i64, i64)]>, this: &mut Times, lasting: &Lasting) -> bool {
        let Some(job) = self.plan.jobs.get(this.len()) else {
            return lasting[self.number(this)];
        };
        (job.release..=job.deadline).any(|t| self.good_start(previous, this, t, lasting))
    }

    /// Whatever the running time of the next job, started at t, all is kept and the rest of the window is playable.
    fn good_start(&self, previous: Option<&[(i64, i64)]>, this: &mut Times, t: i64, lasting: &Lasting) -> bool {
        let job = &self.plan.jobs[this.len()];
        (job.min..=job.max).all(|running| {
            this.push((t, t + running));
            let good = self.kept(previous, this) && self.playable(previous, this, lasting);
            this.pop();
            good
        })
    }

    /// The window keeps its bounds, and no start of it would be carried past its deadline by max: such a start is in no strategy.
    fn possible(&self, window: &[(i64, i64)]) -> bool {
        let in_time = window.iter().zip(&self.plan.jobs).all(|((start, _), job)| start + job.max <= job.deadline);
        in_time && self.kept(None, window)
    }

    pub fn solve(&self) -> Outcome {
        let mut lasting: Lasting = (0..self.windows() as usize).map(|number| self.possible(&self.window(number))).collect();
        let mut after = 0;
        loop {
            if !self.playable(None, &mut Vec::new(), &lasting) {
                return Outcome::NoStrategy(after + 1);
            }
            let longer: Lasting = lasting
                .iter()
                .enumerate()
                .map(|(number, before)| *before && self.playable(Some(&self.window(number)), &mut Vec::new(), &lasting))
                .collect();
            if longer == lasting {
                return Outcome::Lasting { after, lasting };
            }
            lasting = longer;
            after += 1;
        }
    }

    /// The starts of the next job after which, for each running time, strategies exist to the end of this window and of
    /// every later one. None where they have a gap.
    pub fn on_offer(&self, previous: Option<&[(i64, i64)]>, this: &[(i64, i64)], lasting: &Lasting) -> Option<Vec<i64>> {
        let job = &self.plan.jobs[this.len()];
        let mut this = this.to_vec();
        let good: Vec<i64> = (job.release..=job.deadline).filter(|&t| self.good_start(previous, &mut this, t, lasting)).collect();
        let whole = good.windows(2).all(|pair| pair[0] + 1 == pair[1]);
        whole.then_some(good)
    }

    /// Visits every position that a run can reach while it keeps to what is on offer. Runs that agree in the last window and
    /// in this one so far are in the same position.
    pub fn visit_positions(&self, lasting: &Lasting, visit: &mut Visit) -> Result<(), String> {
        let mut reached = HashSet::new();
        let mut waiting = vec![None];
        while let Some(previous) = waiting.pop() {
            let mut ended = Vec::new();
            self.visit_window(previous.as_deref(), &mut Vec::new(), lasting, visit, &mut ended)?;
            for window in ended {
                if reached.insert(self.number(&window)) {
                    waiting.push(Some(window));
                }
            }
        }
        Ok(())
    }

    fn visit_window(
        &self,
        previous: Option<&[(i64, i64)]>,
        this: &mut Times,
        lasting: &Lasting,
        visit: &mut Visit,
        ended: &mut Vec<Times>,
    ) -> Result<(), String> {
        let Some(job) = self.plan.jobs.get(this.len()) else {
            ended.push(this.clone());
            return Ok(());
        };
        let starts = self.on_offer(previous, this, lasting).ok_or("the starts on offer have a gap")?;
        visit(previous, this, &starts)?;
        for &start in &starts {
            for running in job.min..=job.max {
                this.push((start, start + running));
                self.visit_window(previous, this, lasting, visit, ended)?;
                this.pop();
            }
        }
        Ok(())
    }
}
