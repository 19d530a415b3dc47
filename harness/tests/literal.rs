//! Elimination read word by word, over a map of bounds and 64-bit numbers, against the tables.

use std::collections::BTreeMap;

use harness::generate::{any_plan, Dice};
use harness::plan::{self, Event, Plan};

/// 'y and z are each the origin (time 0), a start or a finish'; window 0 is this one, 1 the next.
#[derive(Clone, Copy, PartialEq, Eq, PartialOrd, Ord, Debug)]
enum Node {
    Origin,
    Start(i64, usize),
    Finish(i64, usize),
}
use Node::*;

/// z - y <= w under (y, z).
type Bounds = BTreeMap<(Node, Node), i64>;

struct Contradiction;

struct Reading<'p>(&'p Plan);

impl Reading<'_> {
    fn earliest(&self, node: Node) -> i64 {
        match node {
            Origin => 0,
            Start(j, i) => self.0.jobs[i].release + j * self.0.window,
            Finish(j, i) => self.0.jobs[i].release + self.0.jobs[i].min + j * self.0.window,
        }
    }

    fn latest(&self, node: Node) -> i64 {
        match node {
            Origin => 0,
            Start(j, i) => self.0.jobs[i].deadline - self.0.jobs[i].max + j * self.0.window,
            Finish(j, i) => self.0.jobs[i].deadline + j * self.0.window,
        }
    }

    /// 'Every bound, given or made, is judged'
    fn judge(&self, bounds: &mut Bounds, y: Node, z: Node, w: i64) -> Result<(), Contradiction> {
        let (contradiction, left_out) = match (y, z) {
            _ if y == z => (w < 0, true),
            (Start(j, i), Finish(l, k)) if (j, i) == (l, k) => (w < self.0.jobs[i].max, true),
            (Finish(j, i), Start(l, k)) if (j, i) == (l, k) => (w < -self.0.jobs[i].min, true),
            _ => {
                let origin = y == Origin || z == Origin;
                (w < self.earliest(z) - self.latest(y), !origin && w >= self.latest(z) - self.earliest(y))
            }
        };
        if contradiction {
            return Err(Contradiction);
        }
        if !left_out {
            let kept = bounds.entry((y, z)).or_insert(w);
            *kept = w.min(*kept);
        }
        Ok(())
    }

    fn node(event: Event) -> Node {
        let window = i64::from(event.next);
        if event.finish {
            Finish(window, event.job)
        } else {
            Start(window, event.job)
        }
    }

    fn own(&self) -> Result<Bounds, Contradiction> {
        let mut bounds = Bounds::new();
        for i in 0..self.0.jobs.len() {
            for node in [Start(0, i), Finish(0, i)] {
                self.judge(&mut bounds, Origin, node, self.latest(node))?;
                self.judge(&mut bounds, node, Origin, -self.earliest(node))?;
            }
            if i > 0 {
                self.judge(&mut bounds, Start(0, i), Finish(0, i - 1), 0)?;
            }
        }
        for bound in self.0.bounds.iter().filter(|bound| !bound.a.next && !bound.b.next) {
            self.judge(&mut bounds, Self::node(bound.b), Self::node(bound.a), bound.c)?;
        }
        Ok(bounds)
    }

    fn between(&self, bounds: &mut Bounds) -> Result<(), Contradiction> {
        self.judge(bounds, Start(1, 0), Finish(0, self.0.jobs.len() - 1), 0)?;
        for bound in self.0.bounds.iter().filter(|bound| bound.a.next || bound.b.next) {
            self.judge(bounds, Self::node(bound.b), Self::node(bound.a), bound.c)?;
        }
        Ok(())
    }

    /// Eliminates a node: its bounds go, and others are made of them.
    fn eliminate(&self, bounds: &mut Bounds, node: Node) -> Result<Bounds, Contradiction> {
        let of_node: Bounds = bounds.iter().filter(|((y, z), _)| *y == node || *z == node).map(|(pair, w)| (*pair, *w)).collect();
        bounds.retain(|pair, _| !of_node.contains_key(pair));
        for (&(y, z), &w) in &of_node {
            match node {
                Finish(j, i) if z == node => self.judge(bounds, y, Start(j, i), w - self.0.jobs[i].max)?,
                Finish(j, i) => self.judge(bounds, Start(j, i), z, w + self.0.jobs[i].min)?,
                _ if z == node => {
                    for (&(x, to), &v) in &of_node {
                        if x == node {
                            self.judge(bounds, y, to, w + v)?;
                        }
                    }
                }
                _ => {}
            }
        }
        Ok(of_node)
    }

    /// Eliminates a window, last job first, each finish before its start; gives the bounds on each start just before.
    fn eliminate_window(&self, bounds: &mut Bounds, window: i64) -> Result<Vec<Bounds>, Contradiction> {
        let mut starts = Vec::new();
        for i in (0..self.0.jobs.len()).rev() {
            self.eliminate(bounds, Finish(window, i))?;
            starts.push(self.eliminate(bounds, Start(window, i))?);
        }
        starts.reverse();
        Ok(starts)
    }

    fn round(&self, own: &Bounds, set: &Bounds) -> Result<(Bounds, Vec<Bounds>), Contradiction> {
        let mut bounds = own.clone();
        let next = |node: Node| match node {
            Origin => Origin,
            Start(_, i) => Start(1, i),
            Finish(_, i) => Finish(1, i),
        };
        for (&(y, z), &w) in set {
            let moved = if y == Origin { self.0.window } else { 0 } - if z == Origin { self.0.window } else { 0 };
            self.judge(&mut bounds, next(y), next(z), w + moved)?;
        }
        self.between(&mut bounds)?;
        let starts = self.eliminate_window(&mut bounds, 1)?;
        Ok((bounds, starts))
    }

    fn calendar_output(&self) -> String {
        let Ok(own) = self.own() else {
            return "refused=4,1\n".into();
        };
        let mut set = own.clone();
        for m in 1..=self.0.rounds {
            match self.round(&own, &set) {
                Err(Contradiction) => {
                    let alone = self.eliminate_window(&mut set.clone(), 0).is_err();
                    return format!("refused=4,{}\n", if alone { m } else { m + 1 });
                }
                Ok((after, starts)) if after == set => return format!("settled={m}\n") + &self.printed(&starts),
                Ok((after, _)) => set = after,
            }
        }
        format!("refused=5,{}\n", self.0.rounds)
    }

    fn printed(&self, starts: &[Bounds]) -> String {
        let mut out = String::new();
        for (i, bounds) in starts.iter().enumerate() {
            let start = Start(1, i);
            let low = -bounds[&(start, Origin)] - self.0.window;
            let high = bounds[&(Origin, start)] - self.0.window;
            out += &format!("job={}\nlow={low}\nhigh={high}\n", i + 1);
            let events = (0..2)
                .flat_map(|j| (0..self.0.jobs.len()).flat_map(move |k| [("s", Start(j, k)), ("f", Finish(j, k))].map(|(s, node)| (j, k, s, node))));
            let mut lines = [String::new(), String::new()];
            for (j, k, kind, node) in events {
                let name = format!("{}{kind}{}", ["p", "t"][j as usize], k + 1);
                if let Some(w) = bounds.get(&(start, node)) {
                    lines[0] += &format!("atleast={name},{}\n", -w);
                }
                if let Some(w) = bounds.get(&(node, start)) {
                    lines[1] += &format!("atmost={name},{w}\n");
                }
            }
            out += &lines.concat();
        }
        out
    }
}

#[test]
fn tables_and_maps_agree() {
    for number in 0..1500 {
        let mut plan = any_plan(&mut Dice::of(11, number));
        // The map is slow, and a hundred rounds show what a thousand would.
        plan.rounds = plan.rounds.min(100);
        let text = plan::text(&plan);
        let tables = String::from_utf8(harness::calendar_output(&text)).unwrap();
        assert_eq!(tables, Reading(&plan).calendar_output(), "{}", String::from_utf8_lossy(&text));
    }
}
