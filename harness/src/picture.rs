//! Sessions as pictures in SVG: one window, with each job's offer, start and finish; and how the offers move from window to window.

use std::fmt::Write;

use crate::plan::{self, Job, Plan};
use crate::run::Step;
use crate::text::{Lines, Refusal};

/// A job of a window as steps and answers tell it: the offer where it was asked for, and the times that were refused by 8 and by 9.
struct Seen {
    window: i64,
    job: usize,
    offer: Option<(i64, i64)>,
    start: i64,
    finish: Option<i64>,
    refused_starts: Vec<i64>,
    refused_finishes: Vec<i64>,
}

/// A session's plan, and its jobs in the order in which they started.
fn seen(session: &[u8], answers: &str) -> Result<(Plan, Vec<Seen>), String> {
    let refused = |refusal: Refusal| format!("the session is refused by {},{}", refusal.number, refusal.value);
    let mut lines = Lines::of(session).map_err(refused)?;
    let plan = plan::read(&mut lines).map_err(refused)?;
    let mut seen: Vec<Seen> = Vec::new();
    let mut offer = None;
    let mut refused_starts = Vec::new();
    for line in answers.lines() {
        let step = lines.next_line().map_err(|_| format!("no step for the answer {line}"))?;
        let (key, value) = line.split_once('=').ok_or(format!("no answer: {line}"))?;
        let numbers: Result<Vec<i64>, _> = value.split(',').map(str::parse).collect();
        match (key, numbers.map_err(|error| format!("{line}: {error}"))?.as_slice()) {
            ("offer", &[low, high]) => offer = Some((low, high)),
            ("started", &[window, job, start]) if 1 <= job && job as usize <= plan.jobs.len() => seen.push(Seen {
                window,
                job: job as usize - 1,
                offer: offer.take(),
                start,
                finish: None,
                refused_starts: std::mem::take(&mut refused_starts),
                refused_finishes: Vec::new(),
            }),
            ("final", &[_, _, finish]) => {
                if let Some(last) = seen.last_mut() {
                    last.finish = Some(finish);
                }
            }
            ("refused", &[number, _]) => match (number, Step::read(step), seen.last_mut()) {
                (8, Ok(Step::Start(t)), _) => refused_starts.push(t),
                (9, Ok(Step::Finish(t)), Some(last)) => last.refused_finishes.push(t),
                _ => {}
            },
            _ => return Err(format!("no answer: {line}")),
        }
    }
    Ok((plan, seen))
}

/// Draws this window of a session. Names stand beside the jobs' numbers, as far as there are any.
pub fn picture(session: &[u8], answers: &str, window: i64, names: &[&str]) -> Result<String, String> {
    let (plan, mut seen) = seen(session, answers)?;
    seen.retain(|job| job.window == window);
    if seen.is_empty() {
        return Err(format!("the answers tell of no start in window {window}"));
    }
    Ok(drawn_window(&plan, &seen, window, names))
}

/// Draws how the offers of each job move over all windows of a session.
pub fn offers(session: &[u8], answers: &str, names: &[&str]) -> Result<String, String> {
    let (plan, mut seen) = seen(session, answers)?;
    seen.retain(|job| job.offer.is_some());
    if seen.is_empty() {
        return Err("the answers tell of no offer that a start follows".into());
    }
    Ok(drawn_offers(&plan, &seen, names))
}

// ---- what both have in common

const LEFT: f64 = 130.0;
const WIDTH: f64 = 700.0;
const RIGHT: f64 = 130.0;

const STYLE: &str = "<style>.page{fill:#fff}.limits{fill:#ddd}.offer{fill:#9cd3a8}.may{fill:#b9c9ea}.runs{fill:#27509b}.start{fill:#12305f}\
.path{stroke:#27509b;stroke-opacity:.35;fill:none}.refused{stroke:#c62828;stroke-width:2.2;fill:none}.halo{stroke:#fff;stroke-width:5;fill:none}.line{stroke:#ccc}.strip{fill:#f6f6f6}\
text{fill:#222}.small{font-size:11px;fill:#555}</style>";

/// A picture that grows line by line.
struct Page(String);

impl Page {
    fn new(height: f64, title: &str) -> Self {
        let mut page = Page(String::new());
        page.put(format!(
            r#"<svg xmlns="http://www.w3.org/2000/svg" viewBox="0 0 {} {height}" font-family="sans-serif" font-size="13">"#,
            LEFT + WIDTH + RIGHT
        ));
        page.put(format!("<title>{title}</title>"));
        page.put(STYLE.into());
        page.put(r#"<rect class="page" width="100%" height="100%"/>"#.into());
        page
    }

    fn put(&mut self, line: String) {
        writeln!(self.0, "{line}").unwrap();
    }

    fn bar(&mut self, kind: &str, x: f64, y: f64, width: f64, height: f64) {
        self.put(format!(r#"<rect class="{kind}" x="{x:.1}" y="{y:.1}" width="{width:.1}" height="{height:.1}"/>"#));
    }

    fn cross(&mut self, x: f64, y: f64) {
        let [left, right, top, bottom] = [x - 5.0, x + 5.0, y - 5.0, y + 5.0];
        let cross = format!("M{left:.1} {top:.1}L{right:.1} {bottom:.1}M{left:.1} {bottom:.1}L{right:.1} {top:.1}");
        // White around it, so that it is seen on any bar.
        self.put(format!(r#"<path class="halo" d="{cross}"/><path class="refused" d="{cross}"/>"#));
    }

    /// A flag whose tip stands at a start, so that a run of a second is seen too.
    fn flag(&mut self, x: f64, y: f64) {
        self.put(format!(r#"<path class="start" d="M{:.1} {:.1}h9l-4.5 7z"/>"#, x - 4.5, y - 7.0));
    }

    fn text(&mut self, class: &str, anchor: &str, x: f64, y: f64, words: &str) {
        self.put(format!(r#"<text class="{class}" x="{x:.1}" y="{y:.1}" text-anchor="{anchor}">{words}</text>"#));
    }

    fn end(mut self) -> String {
        self.put("</svg>".into());
        self.0
    }
}

/// What a row is called.
fn label(job: usize, names: &[&str]) -> String {
    match names.get(job) {
        Some(name) if !name.is_empty() => {
            format!("{} {}", job + 1, name.replace('&', "&amp;").replace('<', "&lt;").replace('>', "&gt;"))
        }
        _ => format!("job {}", job + 1),
    }
}

/// A unit that gives short numbers: its name and its milliseconds.
fn unit(length: i64) -> (&'static str, i64) {
    match length {
        600_000.. => ("minutes", 60_000),
        10_000.. => ("seconds", 1000),
        _ => ("milliseconds", 1),
    }
}

/// A number with one digit after the point at most.
fn short(t: i64, each: i64) -> f64 {
    (t as f64 / each as f64 * 10.0).round() / 10.0
}

/// How long a job ran, in a unit of its own.
fn span(length: i64) -> String {
    let (short_name, each) = match length {
        60_000.. => ("min", 60_000),
        1000.. => ("s", 1000),
        _ => ("ms", 1),
    };
    format!("{} {short_name}", short(length, each))
}

// ---- one window

const TOP: f64 = 74.0;
const ROW: f64 = 32.0;

fn drawn_window(plan: &Plan, seen: &[Seen], window: i64, names: &[&str]) -> String {
    let begins = (window - 1) * plan.window;
    let job = |seen: &Seen| -> &Job { &plan.jobs[seen.job] };
    let ends = |seen: &Seen| seen.start.max(seen.offer.map_or(0, |offer| offer.1)) + job(seen).max - begins;
    let length = seen.iter().map(ends).fold(plan.window, i64::max);
    let x = |t: i64| LEFT + (t - begins) as f64 / length as f64 * WIDTH;
    let bottom = TOP + ROW * seen.len() as f64;
    let (unit_name, each) = unit(length);
    let mut page = Page::new(bottom + 48.0, &format!("Window {window}: offers, starts and finishes of {} jobs", seen.len()));
    for (at, (kind, words)) in
        [("limits", "release to deadline"), ("offer", "offer: it may start"), ("runs", "runs, start to finish"), ("may", "may run on, up to max")]
            .iter()
            .enumerate()
    {
        let from = LEFT + 176.0 * at as f64;
        page.bar(kind, from, 14.0, 22.0, 12.0);
        page.text("", "start", from + 28.0, 25.0, words);
    }
    page.flag(LEFT + 11.0, 49.0);
    page.text("", "start", LEFT + 28.0, 50.0, "start");
    page.cross(LEFT + 189.0, 45.0);
    page.text("", "start", LEFT + 206.0, 50.0, "refused: a start outside the offer, a finish past max");
    page.text("small", "start", LEFT + WIDTH + 12.0, 50.0, "ran, of min to max");
    for tick in 0..=6 {
        let t = begins + plan.window * tick / 6;
        page.put(format!(r#"<line class="line" x1="{0:.1}" y1="{TOP}" x2="{0:.1}" y2="{bottom}"/>"#, x(t)));
        page.text("", "middle", x(t), bottom + 18.0, &short(t, each).to_string());
    }
    page.text("", "middle", LEFT + WIDTH / 2.0, bottom + 38.0, &format!("{unit_name} on the run's clock, window {window}"));
    for (at, seen) in seen.iter().enumerate() {
        let y = TOP + ROW * at as f64;
        page.text("", "start", 14.0, y + 21.0, &label(seen.job, names));
        // A bar of no length is drawn as a line.
        let mut bar = |kind: &str, from: i64, to: i64, top: f64, height: f64, least: f64| {
            page.bar(kind, x(from), y + top, (x(to) - x(from)).max(least), height)
        };
        bar("limits", begins + job(seen).release, (begins + job(seen).deadline).min(begins + length), 14.0, 4.0, 1.5);
        if let Some((low, high)) = seen.offer {
            bar("offer", low, high, 5.0, 22.0, 3.0);
        }
        bar("may", seen.start, seen.start + job(seen).max, 11.0, 10.0, 3.0);
        if let Some(finish) = seen.finish {
            bar("runs", seen.start, finish, 11.0, 10.0, 3.0);
            let (min, max) = (job(seen).min, job(seen).max);
            page.text("", "start", LEFT + WIDTH + 12.0, y + 16.0, &span(finish - seen.start));
            page.text("small", "start", LEFT + WIDTH + 12.0, y + 29.0, &format!("of {} to {}", span(min), span(max)));
        }
        page.flag(x(seen.start), y + 9.0);
        for &t in seen.refused_starts.iter().chain(&seen.refused_finishes).filter(|&&t| t >= begins && t <= begins + length) {
            page.cross(x(t), y + 16.0);
        }
    }
    page.end()
}

// ---- the windows of a session

const STRIP: f64 = 58.0;
const GAP: f64 = 14.0;

/// The least round step, of the axis of a strip, by which a length has at most three.
fn step(length: f64) -> f64 {
    [1.0, 2.0, 5.0, 10.0, 15.0, 20.0, 30.0, 60.0].into_iter().find(|step| length / step <= 3.0).unwrap_or((length / 3.0).ceil())
}

fn drawn_offers(plan: &Plan, seen: &[Seen], names: &[&str]) -> String {
    let (first, last) = (seen[0].window, seen[seen.len() - 1].window);
    let column = WIDTH / (last - first + 1) as f64;
    let x = |window: i64| LEFT + column * ((window - first) as f64 + 0.5);
    let (unit_name, each) = unit(plan.window);
    let own = |seen: &Seen, t: i64| (t - (seen.window - 1) * plan.window) as f64 / each as f64;
    let top = 66.0;
    let bottom = top + (STRIP + GAP) * plan.jobs.len() as f64;
    let mut page = Page::new(bottom + 40.0, &format!("Windows {first} to {last}: how the offers of {} jobs move", plan.jobs.len()));
    page.bar("offer", LEFT, 14.0, 12.0, 18.0);
    page.text("", "start", LEFT + 20.0, 28.0, "offer: the job may start");
    page.bar("start", LEFT + 200.0, 21.5, 16.0, 3.0);
    page.text("", "start", LEFT + 224.0, 28.0, "it started");
    page.cross(LEFT + 330.0, 23.0);
    page.text("", "start", LEFT + 344.0, 28.0, "a start outside the offer, refused");
    page.text("small", "start", 14.0, 50.0, &format!("{unit_name} after the window's beginning; each job has a scale of its own"));
    page.text("small", "start", LEFT + WIDTH + 12.0, 50.0, "runs for");
    for (job, limits) in plan.jobs.iter().enumerate() {
        let mine = || seen.iter().filter(move |seen| seen.job == job);
        let ends = || mine().flat_map(|seen| seen.offer.map(|(low, high)| [own(seen, low), own(seen, high)])).flatten();
        let (least, most) = (ends().fold(f64::MAX, f64::min).floor(), ends().fold(f64::MIN, f64::max).ceil());
        let y = top + (STRIP + GAP) * job as f64;
        let length = (most - least).max(1.0);
        // Later is higher.
        let height = |t: f64| y + STRIP - (t - least) / length * STRIP;
        page.bar("strip", LEFT, y, WIDTH, STRIP);
        page.text("", "start", 14.0, y + STRIP / 2.0 + 5.0, &label(job, names));
        page.text("small", "start", LEFT + WIDTH + 12.0, y + STRIP / 2.0 + 4.0, &format!("{} to {}", span(limits.min), span(limits.max)));
        let each_step = step(length);
        let mut tick = (least / each_step).ceil() * each_step;
        while tick <= least + length {
            page.put(format!(r#"<line class="line" x1="{LEFT}" y1="{0:.1}" x2="{1}" y2="{0:.1}"/>"#, height(tick), LEFT + WIDTH));
            page.text("small", "end", LEFT - 5.0, height(tick) + 4.0, &tick.to_string());
            tick += each_step;
        }
        let starts: Vec<String> = mine().map(|seen| format!("{:.1},{:.1}", x(seen.window), height(own(seen, seen.start)))).collect();
        page.put(format!(r#"<polyline class="path" points="{}"/>"#, starts.join(" ")));
        for seen in mine() {
            let Some((low, high)) = seen.offer else { continue };
            let (lower, upper) = (height(own(seen, low)), height(own(seen, high)));
            let tall = (lower - upper).max(3.0);
            page.bar("offer", x(seen.window) - column * 0.22, (lower + upper - tall) / 2.0, column * 0.44, tall);
            page.bar("start", x(seen.window) - column * 0.28, height(own(seen, seen.start)) - 1.5, column * 0.56, 3.0);
            for &t in &seen.refused_starts {
                // Beside the bar, which it would hide.
                page.cross(x(seen.window) + column * 0.38, height(own(seen, t).clamp(least, least + length)));
            }
        }
    }
    for window in first..=last {
        page.text("", "middle", x(window), bottom + 6.0, &window.to_string());
    }
    page.text("", "middle", LEFT + WIDTH / 2.0, bottom + 28.0, "window");
    page.end()
}

#[cfg(test)]
mod tests {
    use super::*;

    const SESSION: &[u8] = b"window=10\nrounds=100\nlast=1000\njobs=1\nmin=2\nmax=4\nrelease=0\ndeadline=10\nbounds=0\n\
        ask=offer\nstart=7\nstart=3\nfinish=8\nfinish=7\n";

    fn answers() -> String {
        String::from_utf8(crate::dispatch_output(SESSION)).unwrap()
    }

    #[test]
    fn a_window_is_drawn() {
        let svg = picture(SESSION, &answers(), 1, &["a < b"]).unwrap();
        for kind in ["limits", "offer", "may", "runs", "start"] {
            // One in the legend, one in the row.
            assert_eq!(svg.matches(&format!("class=\"{kind}\"")).count(), 2, "{svg}");
        }
        // One in the legend, the start at 7 and the finish at 8.
        assert_eq!(svg.matches("class=\"refused\"").count(), 3, "{svg}");
        assert!(svg.contains("1 a &lt; b</text>"), "{svg}");
        assert!(svg.contains(r#"<rect class="offer" x="130.0" y="79.0" width="420.0" height="22.0"/>"#), "{svg}");
        assert!(svg.contains("4 ms</text>"), "{svg}");
    }

    #[test]
    fn offers_are_drawn() {
        let svg = offers(SESSION, &answers(), &[]).unwrap();
        for (kind, count) in [("offer", 2), ("start", 2), ("refused", 2)] {
            assert_eq!(svg.matches(&format!("class=\"{kind}\"")).count(), count, "{svg}");
        }
        assert!(svg.contains("job 1</text>"), "{svg}");
    }

    #[test]
    fn a_run_of_a_second_is_seen() {
        assert_eq!(span(1499), "1.5 s");
        let svg = picture(include_bytes!("../../examples/tables.session"), include_str!("../../examples/tables.answers"), 2, &[]).unwrap();
        let widths = svg.lines().filter_map(|line| line.strip_prefix(r#"<rect class="runs""#)?.split('"').nth(5)?.parse().ok());
        assert!(widths.map(|width: f64| width >= 3.0).eq([true; 10]), "{svg}");
    }

    /// `make picture` draws what docs/ has.
    #[test]
    fn the_pictures_of_the_docs_are_these() {
        let names: Vec<&str> = include_str!("../../examples/tables.names").lines().collect();
        let (tables, day) = (include_bytes!("../../examples/tables.session"), include_bytes!("../../examples/day.session"));
        let window = picture(tables, include_str!("../../examples/tables.answers"), 2, &names).unwrap();
        assert!(window == include_str!("../../docs/window.svg"), "docs/window.svg differs: make picture");
        let moving = offers(day, include_str!("../../examples/day.answers"), &names).unwrap();
        assert!(moving == include_str!("../../docs/day.svg"), "docs/day.svg differs: make picture");
    }

    #[test]
    fn what_cannot_be_drawn_is_told() {
        assert!(picture(SESSION, "offer=0,6\n", 1, &[]).is_err());
        assert!(picture(b"", "started=1,1,3\n", 1, &[]).is_err());
        assert!(picture(SESSION, "started=1,1\n", 1, &[]).is_err());
        assert!(picture(SESSION, "started=1,2,3\n", 1, &[]).is_err());
        assert!(picture(SESSION, &"refused=6,0\n".repeat(6), 1, &[]).is_err());
        assert!(offers(SESSION, "started=1,1,3\n", &[]).is_err());
    }
}
