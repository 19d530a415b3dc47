//! Bounds, their judgement, and the elimination of events.
//!
//! Events are nodes in the order of time: 0 is the origin, job i (from 0) has its start at 1 + 2i and its finish at
//! 2 + 2i, and the next window's nodes follow. So the event to eliminate is always the last node that is left.

use crate::plan::{Plan, JOBS_MOST};

pub const SIDE: usize = 1 + 4 * JOBS_MOST;

/// No bound on this pair.
pub const NONE: i32 = i32::MAX;

/// 'z - y <= w': the cell `[y][z]` holds the least w. Kept weights and their sums stay far inside 32 bits.
pub type Table = [[i32; SIDE]; SIDE];

#[derive(Clone, Copy, Debug, PartialEq, Eq)]
pub struct Contradiction;

type Judged = Result<(), Contradiction>;

pub enum Verdict {
    /// The round, and its table: the row and column of each of the next window's starts as they were just before it was eliminated.
    Settled(i64, Box<Table>),
    NoStrategy(i64),
    Unsettled,
}

/// What a plan fixes for every round.
pub struct Elimination<'p> {
    plan: &'p Plan,
    /// Nodes of this window, the origin among them; and those of both windows.
    this: usize,
    both: usize,
    /// A bound below `least` is a contradiction; one not below `most` is left out.
    least: Table,
    most: Table,
}

impl<'p> Elimination<'p> {
    pub fn of(plan: &'p Plan) -> Self {
        let this = 1 + 2 * plan.jobs.len();
        let both = 1 + 4 * plan.jobs.len();
        let mut elimination = Elimination { plan, this, both, least: [[0; SIDE]; SIDE], most: [[0; SIDE]; SIDE] };
        let (earliest, latest) = elimination.ranges();
        for y in 0..both {
            for z in 0..both {
                elimination.least[y][z] = earliest[z] - latest[y];
                elimination.most[y][z] = latest[z] - earliest[y];
            }
        }
        // Bounds to and from the origin are never left out.
        for node in 0..both {
            elimination.most[node][0] = NONE;
            elimination.most[0][node] = NONE;
        }
        // Those between a node and itself, or the start and finish of one job in one window, always are.
        for node in 0..both {
            elimination.alone(node, node, 0);
        }
        for start in (1..both).step_by(2) {
            let job = elimination.job(start);
            elimination.alone(start, start + 1, job.max as i32);
            elimination.alone(start + 1, start, -job.min as i32);
        }
        elimination
    }

    /// The pair is judged by `least` alone, and no bound is kept on it.
    fn alone(&mut self, y: usize, z: usize, least: i32) {
        self.least[y][z] = least;
        self.most[y][z] = i32::MIN;
    }

    fn job(&self, node: usize) -> &'p crate::plan::Job {
        &self.plan.jobs[(node - 1) / 2 % self.plan.jobs.len()]
    }

    /// Earliest and latest of each node.
    fn ranges(&self) -> ([i32; SIDE], [i32; SIDE]) {
        let mut earliest = [0; SIDE];
        let mut latest = [0; SIDE];
        for start in (1..self.both).step_by(2) {
            let job = self.job(start);
            let moved = if start < self.this { 0 } else { self.plan.window };
            earliest[start] = (job.release + moved) as i32;
            latest[start] = (job.deadline - job.max + moved) as i32;
            earliest[start + 1] = (job.release + job.min + moved) as i32;
            latest[start + 1] = (job.deadline + moved) as i32;
        }
        (earliest, latest)
    }

    /// Judges z - y <= w and keeps it if it is the least on its pair.
    fn add(&self, table: &mut Table, y: usize, z: usize, w: i32) -> Judged {
        if w < self.least[y][z] {
            return Err(Contradiction);
        }
        if w < self.most[y][z] && w < table[y][z] {
            table[y][z] = w;
        }
        Ok(())
    }

    /// 'A window's own bounds': C(0).
    pub fn own(&self) -> Result<Table, Contradiction> {
        let mut table = [[NONE; SIDE]; SIDE];
        let (earliest, latest) = self.ranges();
        for node in 1..self.this {
            self.add(&mut table, 0, node, latest[node])?;
            self.add(&mut table, node, 0, -earliest[node])?;
        }
        for finish in (2..self.this - 1).step_by(2) {
            self.add(&mut table, finish + 1, finish, 0)?;
        }
        self.given(&mut table, false)?;
        Ok(table)
    }

    /// Adds the bounds 'between windows'.
    pub fn between(&self, table: &mut Table) -> Judged {
        self.add(table, self.this, self.this - 1, 0)?;
        self.given(table, true)
    }

    /// Adds the given bounds with an n event, or those without.
    fn given(&self, table: &mut Table, next: bool) -> Judged {
        let jobs = self.plan.jobs.len();
        for bound in &self.plan.bounds {
            if (bound.a.next || bound.b.next) == next {
                self.add(table, 1 + bound.b.place(jobs), 1 + bound.a.place(jobs), bound.c as i32)?;
            }
        }
        Ok(())
    }

    /// Eliminates the last node that is left. Its row and column stay in the table and are not looked at again.
    fn eliminate(&self, table: &mut Table, node: usize) -> Judged {
        if node.is_multiple_of(2) {
            self.eliminate_finish(table, node)
        } else {
            self.eliminate_start(table, node)
        }
    }

    /// 'f - y <= w becomes s - y <= w - max; z - f <= w becomes z - s <= w + min.'
    fn eliminate_finish(&self, table: &mut Table, finish: usize) -> Judged {
        let start = finish - 1;
        let (min, max) = (self.job(start).min as i32, self.job(start).max as i32);
        for y in 0..start {
            let w = table[y][finish];
            if w != NONE {
                self.add(table, y, start, w - max)?;
            }
        }
        for z in 0..start {
            let w = table[finish][z];
            if w != NONE {
                self.add(table, start, z, w + min)?;
            }
        }
        Ok(())
    }

    /// 'each s - y <= w and z - s <= v give z - y <= w + v'
    fn eliminate_start(&self, table: &mut Table, start: usize) -> Judged {
        let mut above = [(0, 0); SIDE];
        let mut count = 0;
        for (z, &v) in table[start][..start].iter().enumerate() {
            if v != NONE {
                above[count] = (z, v);
                count += 1;
            }
        }
        for y in 0..start {
            let w = table[y][start];
            if w != NONE {
                for &(z, v) in &above[..count] {
                    self.add(table, y, z, w + v)?;
                }
            }
        }
        Ok(())
    }

    /// Puts a set of one window on the next: its bounds to and from the origin move by `window`.
    fn put_next(&self, table: &mut Table, set: &Table) {
        let window = self.plan.window as i32;
        let events = self.this - 1;
        for (node, row) in set[..self.this].iter().enumerate().skip(1) {
            let next = node + events;
            table[next][self.this..self.both].copy_from_slice(&row[1..self.this]);
            table[0][next] = set[0][node] + window;
            table[next][0] = row[0] - window;
        }
    }

    fn same(&self, a: &Table, b: &Table) -> bool {
        (0..self.this).all(|y| a[y][..self.this] == b[y][..self.this])
    }

    /// Eliminates the nodes from `from` up to `to`, the last one first.
    fn eliminate_all(&self, table: &mut Table, from: usize, to: usize) -> Judged {
        (from..to).rev().try_for_each(|node| self.eliminate(table, node))
    }

    /// K for a first contradiction in round m: 'if one window alone, with C(m-1), gives a contradiction .., K = m, else K = m + 1'.
    fn no_strategy(&self, m: i64, set: &mut Table) -> Verdict {
        match self.eliminate_all(set, 1, self.this) {
            Err(Contradiction) => Verdict::NoStrategy(m),
            Ok(()) => Verdict::NoStrategy(m + 1),
        }
    }

    pub fn verdict(&self) -> Verdict {
        let Ok(mut set) = self.own() else {
            return Verdict::NoStrategy(1);
        };
        let mut first = set;
        if self.between(&mut first).is_err() {
            return self.no_strategy(1, &mut set);
        }
        let mut table = Box::new(first);
        for m in 1..=self.plan.rounds {
            self.put_next(&mut table, &set);
            if self.eliminate_all(&mut table, self.this, self.both).is_err() {
                return self.no_strategy(m, &mut set);
            }
            if self.same(&table, &set) {
                return Verdict::Settled(m, table);
            }
            set = *table;
            *table = first;
        }
        Verdict::Unsettled
    }
}
