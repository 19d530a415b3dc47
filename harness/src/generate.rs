//! Random plans, sessions and damaged texts, each from a seed.

use crate::calendar;
use crate::plan::{self, Bound, Event, Job, Plan};
use crate::run::{Run, TIME_MOST};
use crate::text::TEXT_MOST;

/// A small generator of random numbers (splitmix64).
pub struct Dice(u64);

impl Dice {
    /// The dice of one case of a seed.
    pub fn of(seed: u64, case: u64) -> Self {
        let mut dice = Dice(seed);
        let mixed = dice.next() ^ case.wrapping_mul(0xD6E8_FEB8_6659_FD93);
        Dice(mixed)
    }

    fn next(&mut self) -> u64 {
        self.0 = self.0.wrapping_add(0x9E37_79B9_7F4A_7C15);
        let mut z = self.0;
        z = (z ^ (z >> 30)).wrapping_mul(0xBF58_476D_1CE4_E5B9);
        z = (z ^ (z >> 27)).wrapping_mul(0x94D0_49BB_1331_11EB);
        z ^ (z >> 31)
    }

    /// From `least` to `most`, both included; `least` if there is nothing between.
    pub fn between(&mut self, least: i64, most: i64) -> i64 {
        if most <= least {
            return least;
        }
        least + (self.next() % ((most - least) as u64 + 1)) as i64
    }

    pub fn below(&mut self, count: usize) -> usize {
        self.between(0, count as i64 - 1) as usize
    }

    pub fn percent(&mut self, chance: i64) -> bool {
        self.between(1, 100) <= chance
    }

    pub fn choose<T: Copy>(&mut self, from: &[T]) -> T {
        from[self.below(from.len())]
    }
}

// ---- plans

/// A pair of events that the document allows.
fn pair(dice: &mut Dice, jobs: usize) -> (Event, Event) {
    loop {
        let mut event = || Event { next: dice.percent(40), finish: dice.percent(50), job: dice.below(jobs) };
        let (a, b) = (event(), event());
        if a != b && !(a.next && b.next) {
            return (a, b);
        }
    }
}

/// So many bounds are tried where a plan is to have as many as it may: some fall on a pair that is already given.
const MANY: usize = 2 * plan::BOUNDS_MOST;

/// Adds bounds on pairs that are not yet given.
fn add_bounds(dice: &mut Dice, plan: &mut Plan, count: usize, c: &mut dyn FnMut(&mut Dice, &Plan, Event, Event) -> i64) {
    for _ in 0..count {
        let (a, b) = pair(dice, plan.jobs.len());
        if plan.bounds.iter().all(|bound| (bound.a, bound.b) != (a, b)) {
            let c = c(dice, plan, a, b);
            plan.bounds.push(Bound { a, b, c });
        }
    }
}

/// A plan for the exhaustive search: one to three jobs, windows and times of a few milliseconds.
pub fn tiny(dice: &mut Dice) -> Plan {
    let jobs = dice.choose(&[1, 1, 2, 2, 2, 2, 3]);
    let window = dice.between(jobs as i64, [12, 7, 6][jobs - 1]);
    let spread = [4, 2, 1][jobs - 1];
    let mut plan = Plan { window, rounds: 1000, last: 1_000_000, jobs: Vec::new(), bounds: Vec::new() };
    for job in 0..jobs as i64 {
        let min = dice.between(0, window / (2 * jobs as i64));
        let max = min + dice.between(0, spread);
        let release = if dice.percent(50) { 0 } else { dice.between(0, window * (job + 1) / jobs as i64) };
        let deadline = (release.max(window * job / jobs as i64) + max + dice.between(-1, window)).clamp(0, window + 3);
        plan.jobs.push(Job { min, max, release, deadline });
    }
    let count = dice.between(0, 5) as usize;
    add_bounds(dice, &mut plan, count, &mut |dice, plan, a, b| {
        let near = |event: Event| {
            let job = &plan.jobs[event.job];
            let time = (job.release + job.deadline - job.max) / 2;
            time + if event.finish { job.max } else { 0 } + if event.next { plan.window } else { 0 }
        };
        near(a) - near(b) + dice.between(-2, plan.window + 2)
    });
    plan
}

/// A plan around a fixed timetable that keeps most of its bounds, so that it mostly settles.
pub fn settling(dice: &mut Dice, jobs: usize) -> Plan {
    let window = dice.choose(&[3, 10, 30, 100, 1_000, 60_000, 86_400_000]);
    let mut cuts: Vec<i64> = (0..2 * jobs).map(|_| dice.between(0, window)).collect();
    cuts.sort();
    let rounds = if dice.percent(30) { dice.between(1, 5) } else { dice.choose(&[10, 100, 1000]) };
    let last = match dice.between(0, 9) {
        0..=2 => dice.between(1, 3),
        3 | 4 => dice.between(4, 30),
        5 => dice.between(31, 1500),
        _ => dice.between(1, plan::LAST_MOST),
    };
    let mut plan = Plan { window, rounds, last, jobs: Vec::new(), bounds: Vec::new() };
    for cut in cuts.chunks(2) {
        let max = dice.between(0, cut[1] - cut[0]);
        let min = if dice.percent(50) { dice.between(max - max / 4, max) } else { dice.between(0, max) };
        let release = if dice.percent(40) { 0 } else { dice.between(0, cut[0]) };
        let slack = if dice.percent(50) { dice.between(0, 5) } else { dice.between(0, window) };
        let deadline = (cut[0] + max + slack).min(plan::PLACE_MOST);
        plan.jobs.push(Job { min, max, release, deadline });
    }
    let tight = dice.percent(40);
    let count = if dice.percent(20) { MANY } else { dice.between(0, 3 * jobs as i64) as usize };
    add_bounds(dice, &mut plan, count, &mut |dice, plan, a, b| {
        let reach = |event: Event, late: bool| {
            let job = &plan.jobs[event.job];
            let running = if late { job.max } else { job.min };
            cuts[2 * event.job] + if event.finish { running } else { 0 } + if event.next { plan.window } else { 0 }
        };
        let worst = match (a.job == b.job && a.next == b.next, a.finish) {
            (true, true) => plan.jobs[a.job].max,
            (true, false) => -plan.jobs[a.job].min,
            _ => reach(a, true) - reach(b, false),
        };
        let most = plan.window / 4 + 1;
        let slack = if tight && dice.percent(20) {
            dice.between(-most / 4 - 1, 0)
        } else if dice.percent(30) {
            0
        } else {
            dice.between(0, most)
        };
        (worst + slack).clamp(-plan::BOUND_MOST, plan::BOUND_MOST)
    });
    plan.bounds.truncate(plan::BOUNDS_MOST);
    plan
}

/// A number of a range, mostly at or near one of its ends.
fn extreme(dice: &mut Dice, least: i64, most: i64) -> i64 {
    match dice.between(0, 5) {
        0 | 1 => least,
        2 | 3 => most,
        4 => dice.choose(&[least + 1, most - 1]).clamp(least, most),
        _ => dice.between(least, most),
    }
}

/// A plan with numbers at the limits.
pub fn extreme_plan(dice: &mut Dice) -> Plan {
    let jobs = extreme(dice, 1, plan::JOBS_MOST as i64) as usize;
    let mut plan = Plan {
        window: extreme(dice, 1, plan::WINDOW_MOST),
        rounds: extreme(dice, 1, plan::ROUNDS_MOST),
        last: extreme(dice, 1, plan::LAST_MOST),
        jobs: Vec::new(),
        bounds: Vec::new(),
    };
    let roomy = dice.percent(60);
    for _ in 0..jobs {
        let max = if roomy { dice.between(0, 1) } else { extreme(dice, 0, plan::RUNNING_MOST) };
        let min = extreme(dice, 0, max);
        let release = if roomy { 0 } else { extreme(dice, 0, plan::PLACE_MOST) };
        let deadline = if roomy { plan::PLACE_MOST } else { extreme(dice, 0, plan::PLACE_MOST) };
        plan.jobs.push(Job { min, max, release, deadline });
    }
    let count = extreme(dice, 0, MANY as i64) as usize;
    add_bounds(dice, &mut plan, count, &mut |dice, _, _, _| {
        if roomy {
            dice.between(plan::PLACE_MOST, plan::BOUND_MOST)
        } else {
            extreme(dice, -plan::BOUND_MOST, plan::BOUND_MOST)
        }
    });
    plan.bounds.truncate(plan::BOUNDS_MOST);
    plan
}

/// One job that starts earlier by some milliseconds in each window: K is large, up to beyond the rounds.
pub fn drifting(dice: &mut Dice) -> Plan {
    let each = dice.between(1, 5);
    let room = each * dice.choose(&[10, 100, 250, 256, 997, 998, 999, 1000, 1001]) + dice.between(-1, 1);
    let window = dice.between(100, 10_000).max(room);
    let max = dice.between(0, 3);
    let job = Job { min: dice.between(0, max), max, release: 0, deadline: room + max };
    let start = |next: bool| Event { next, finish: false, job: 0 };
    let bound = Bound { a: start(true), b: start(false), c: window - each };
    Plan { window, rounds: dice.choose(&[100, 255, 999, 1000]), last: 1000, jobs: vec![job], bounds: vec![bound] }
}

/// Each job's start is bound to the next window's start of the job after it: what holds for the last job reaches the first after a round for
/// each between them, so that the plan settles late.
pub fn chained(dice: &mut Dice) -> Plan {
    let jobs = dice.between(2, plan::JOBS_MOST as i64) as usize;
    let window = dice.between(100, 1000);
    let c = window + dice.between(1, window / 20);
    let start = |next: bool, job: usize| Event { next, finish: false, job };
    let release = |job: usize| if job + 1 == jobs { window + window / 2 } else { 0 };
    Plan {
        window,
        rounds: dice.choose(&[3, 8, 9, 10, 1000]),
        last: dice.between(1, 50),
        jobs: (0..jobs).map(|job| Job { min: 0, max: 0, release: release(job), deadline: 2 * window }).collect(),
        bounds: (1..jobs).map(|job| Bound { a: start(true, job), b: start(false, job - 1), c }).collect(),
    }
}

/// A plan of any kind.
pub fn any_plan(dice: &mut Dice) -> Plan {
    match dice.between(0, 19) {
        0 | 1 => tiny(dice),
        2 | 3 => extreme_plan(dice),
        4 if dice.percent(50) => drifting(dice),
        4 => chained(dice),
        _ => {
            let jobs = dice.between(1, plan::JOBS_MOST as i64) as usize;
            settling(dice, jobs)
        }
    }
}

// ---- sessions

/// A session that mostly keeps to its offers, with refused steps here and there; a few have no steps.
pub fn session(dice: &mut Dice, plan: &Plan) -> Vec<u8> {
    let mut text = plan::text(plan);
    if dice.percent(3) {
        return text;
    }
    let most = if dice.percent(3) { TEXT_MOST } else { text.len() + dice.between(0, 1500) as usize };
    let Ok(calendar) = calendar::calendar(plan) else {
        let count = dice.between(0, 5);
        (0..count).for_each(|_| text.extend_from_slice(stray_step(dice, 0).as_bytes()));
        return text;
    };
    let mut run = Run::new(plan, &calendar);
    let strays = dice.choose(&[0, 5, 5, 30]);
    loop {
        if run.is_over() && dice.percent(10) {
            return text;
        }
        let step = if dice.percent(strays) { stray_step(dice, run.running_since().unwrap_or(0)) } else { good_step(dice, &mut run, plan) };
        if text.len() + step.len() > most {
            return text;
        }
        text.extend_from_slice(step.as_bytes());
        // A stray step may be accepted too: the run follows the text.
        if let Some(t) = step.strip_prefix("start=").and_then(|t| t.trim_end().parse().ok()) {
            let _ = run.start(t);
        }
        if let Some(t) = step.strip_prefix("finish=").and_then(|t| t.trim_end().parse().ok()) {
            let _ = run.finish(t);
        }
    }
}

/// A step that the run accepts, if it is not over. An auto start is taken here, the others when the text is followed.
fn good_step(dice: &mut Dice, run: &mut Run, plan: &Plan) -> String {
    if let Some(start) = run.running_since() {
        let job = &plan.jobs[run.job];
        return format!("finish={}\n", start + dice.between(job.min, job.max));
    }
    if dice.percent(20) {
        return "ask=offer\n".into();
    }
    match run.offer() {
        Ok(offer) if !dice.percent(25) => {
            let t = if dice.percent(50) { dice.choose(&[offer.low, offer.high]) } else { dice.between(offer.low, offer.high) };
            format!("start={t}\n")
        }
        _ => {
            let _ = run.start_auto();
            "start=auto\n".into()
        }
    }
}

/// A step that is well formed and need not be accepted.
fn stray_step(dice: &mut Dice, near: i64) -> String {
    let t = match dice.between(0, 9) {
        0 => dice.choose(&[0, TIME_MOST]),
        1 => dice.between(0, TIME_MOST),
        _ => (near + dice.between(-20, 120)).max(0),
    };
    match dice.between(0, 2) {
        0 => "ask=offer\n".into(),
        1 => format!("start={t}\n"),
        _ => format!("finish={t}\n"),
    }
}

// ---- damage

/// A text with one to three faults, which may cancel out.
pub fn damaged(dice: &mut Dice, mut text: Vec<u8>) -> Vec<u8> {
    for _ in 0..dice.choose(&[1, 1, 1, 2, 3]) {
        text = damage(dice, text);
    }
    text
}

fn damage(dice: &mut Dice, mut text: Vec<u8>) -> Vec<u8> {
    const ODD: &[u8] = b"\n\r\0 =,-+/:0123456789tnpsfaobTNSF\t\x7f\x80\xff";
    let at = dice.below(text.len().max(1));
    match dice.between(0, 18) {
        0 | 1 if !text.is_empty() => text[at] = dice.choose(ODD),
        2 if !text.is_empty() => text[at] ^= 1 << dice.between(0, 7),
        3 => text.insert(dice.below(text.len() + 1), dice.choose(ODD)),
        4 if !text.is_empty() => drop(text.remove(at)),
        5 => text.truncate(at),
        6 => return edited_lines(dice, &text),
        7 => return sized(dice, text),
        8 => {
            text.pop();
        }
        9 | 10 => return wrong_pair(dice, &text),
        // What comes after the last line; an LF alone is the least of it.
        11 => text.extend_from_slice(dice.choose(&[b"\n".as_slice(), b"\n", b"\n", b"ask=offer\n", b"bound=ts1,tf1,0\n", b"\r\n", b"x"])),
        _ => return edited_number(dice, &text),
    }
    text
}

fn lines_of(text: &[u8]) -> Vec<Vec<u8>> {
    text.split_inclusive(|&byte| byte == b'\n').map(<[u8]>::to_vec).collect()
}

/// A line dropped, repeated, emptied, ended by CR LF, or two lines exchanged.
fn edited_lines(dice: &mut Dice, text: &[u8]) -> Vec<u8> {
    let mut lines = lines_of(text);
    if lines.is_empty() {
        return text.to_vec();
    }
    let (i, j) = (dice.below(lines.len()), dice.below(lines.len()));
    // Also after the last line.
    let between = dice.below(lines.len() + 1);
    match dice.between(0, 5) {
        0 => drop(lines.remove(i)),
        1 => {
            let line = lines[i].clone();
            lines.insert(between, line);
        }
        2 => lines[i] = b"\n".to_vec(),
        3 => {
            let end = lines[i].len() - 1;
            lines[i].insert(end, b'\r');
        }
        4 => lines.swap(i, j),
        _ => lines.insert(between, b"\n".to_vec()),
    }
    lines.concat()
}

/// A bound's events put on another bound, or exchanged, or one of them given twice.
fn wrong_pair(dice: &mut Dice, text: &[u8]) -> Vec<u8> {
    let mut lines = lines_of(text);
    let bounds: Vec<usize> = (0..lines.len()).filter(|&at| lines[at].starts_with(b"bound=") && lines[at].len() > 14).collect();
    if bounds.is_empty() {
        return text.to_vec();
    }
    let from = dice.choose(&bounds);
    let to = if dice.percent(40) { bounds[bounds.len() - 1] } else { dice.choose(&bounds) };
    let events = lines[from][6..13].to_vec();
    let (a, b) = (&events[..3], &events[4..]);
    let next: &[u8] = if dice.percent(50) { b"ns1" } else { b"nf1" };
    let (a, b) = dice.choose(&[(a, b), (a, b), (b, a), (a, a), (next, a), (next, next)]);
    lines[to].splice(6..9, a.iter().copied());
    lines[to].splice(10..13, b.iter().copied());
    lines.concat()
}

/// A text of 65,536 bytes or about as many, whatever they are.
fn sized(dice: &mut Dice, mut text: Vec<u8>) -> Vec<u8> {
    let size = TEXT_MOST + dice.choose(&[0, 0, 0, 1, 1, 2, 1000]);
    let fill: &[u8] = dice.choose(&[b"ask=offer\n".as_slice(), b"\n", b"finish=0\n", b"9"]);
    while text.len() < size {
        text.extend_from_slice(fill);
    }
    if dice.percent(50) {
        text.truncate(size);
    } else {
        // A last number so long that the whole fills the size.
        text.truncate(size - 100);
        while text.last().is_some_and(|&byte| byte != b'\n') {
            text.pop();
        }
        text.extend_from_slice(b"start=");
        text.resize(size - 1, b'8');
        text.push(b'\n');
    }
    text
}

/// A number of some line replaced: at a limit, one past it, or in a form that is not the document's.
fn edited_number(dice: &mut Dice, text: &[u8]) -> Vec<u8> {
    let mut lines = lines_of(text);
    if lines.is_empty() {
        return text.to_vec();
    }
    let i = if dice.percent(70) { dice.below(lines.len().min(40)) } else { dice.below(lines.len()) };
    let line = String::from_utf8_lossy(&lines[i]).into_owned();
    let Some((key, value)) = line.trim_end().split_once('=') else {
        return text.to_vec();
    };
    let (least, most) = match key {
        "window" => (1, plan::WINDOW_MOST),
        "rounds" => (1, plan::ROUNDS_MOST),
        "last" => (1, plan::LAST_MOST),
        "jobs" => (1, plan::JOBS_MOST as i64),
        "min" | "max" => (0, plan::RUNNING_MOST),
        "release" | "deadline" => (0, plan::PLACE_MOST),
        "bounds" => (0, plan::BOUNDS_MOST as i64),
        "bound" => (-plan::BOUND_MOST, plan::BOUND_MOST),
        _ => (0, TIME_MOST),
    };
    let before = match value.rsplit_once(',') {
        Some((events, _)) if key == "bound" => format!("{}{},", key.to_owned() + "=", edited_events(dice, events)),
        _ => format!("{key}="),
    };
    let old = value.rsplit(',').next().unwrap_or("");
    let number = match dice.between(0, 9) {
        0 | 1 => least.to_string(),
        2 | 3 => most.to_string(),
        4 => (least - 1).to_string(),
        5 => (most + 1).to_string(),
        6 | 9 if dice.percent(if key == "finish" { 50 } else { 10 }) => "auto".into(),
        6 => dice.choose(&["", "-", "-0", "+1", "00", "01", "-01", "1 ", " 1", "auto", "offer", "0x1", "1e3", "1,"]).to_string(),
        7 => {
            let digits = dice.choose(&[18, 19, 20, 21, 39, 40, 300, 1000]);
            let first = dice.choose(&["1", "9", "-1", "-9", "0"]);
            first.to_string() + &dice.choose(&["0", "9", "4"]).repeat(digits - 1)
        }
        8 => old.parse::<i64>().map_or("1".into(), |n| n.saturating_add(dice.between(-2, 2)).to_string()),
        _ => old.to_string(),
    };
    lines[i] = format!("{before}{number}\n").into_bytes();
    lines.concat()
}

/// The events of a bound, sometimes others.
fn edited_events(dice: &mut Dice, events: &str) -> String {
    match dice.between(0, 5) {
        0 => events.replacen('t', dice.choose(&["n", "p", "T", ""]), 1),
        1 => events.replacen('s', dice.choose(&["f", "S", "e"]), 1),
        2 => events.replacen(|c: char| c.is_ascii_digit(), dice.choose(&["0", "9", "5", "10", "-1", ""]), 1),
        3 => events.split_once(',').map_or(String::new(), |(a, b)| format!("{},{}", dice.choose(&[a, b]), dice.choose(&[a, b]))),
        _ => events.to_string(),
    }
}

// ---- cases

/// A text, and which of the two programs it is for.
pub struct Case {
    pub session: bool,
    pub text: Vec<u8>,
}

/// The case of this number of a seed.
pub fn case(seed: u64, number: u64) -> Case {
    let mut dice = Dice::of(seed, number);
    let plan = any_plan(&mut dice);
    let session = dice.percent(60);
    let text = if session { self::session(&mut dice, &plan) } else { plan::text(&plan) };
    let text = if dice.percent(40) { damaged(&mut dice, text) } else { text };
    Case { session, text }
}
