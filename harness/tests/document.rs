//! The examples of document 01, and plans that tell right from nearly right.

use harness::{calendar_output, dispatch_output};

/// A plan from its numbers: the jobs are (min, max, release, deadline).
fn plan(window: i64, rounds: i64, jobs: &[(i64, i64, i64, i64)], bounds: &[&str]) -> String {
    let mut text = format!("window={window}\nrounds={rounds}\nlast=1000\njobs={}\n", jobs.len());
    for (min, max, release, deadline) in jobs {
        text += &format!("min={min}\nmax={max}\nrelease={release}\ndeadline={deadline}\n");
    }
    text += &format!("bounds={}\n", bounds.len());
    for bound in bounds {
        text += &format!("bound={bound}\n");
    }
    text
}

/// Plan P with other rounds, max or bounds.
fn p(rounds: i64, max: i64, bounds: &[&str]) -> String {
    plan(10, rounds, &[(2, max, 0, 10)], bounds)
}

const BOUNDS: [&str; 2] = ["ns1,ts1,12", "ts1,ns1,-8"];

fn calendar(text: &str) -> String {
    String::from_utf8(calendar_output(text.as_bytes())).unwrap()
}

fn dispatch(text: &str) -> String {
    String::from_utf8(dispatch_output(text.as_bytes())).unwrap()
}

/// The verdict: the calendar's first line, which for a plan without steps is the session's refusal too.
fn verdict(text: &str) -> String {
    let whole = calendar(text);
    assert_eq!(dispatch(text), if whole.starts_with("settled") { "" } else { &whole });
    whole.lines().next().unwrap().to_string()
}

#[test]
fn p1_is_printed_whole() {
    assert_eq!(calendar(&p(100, 4, &BOUNDS)), "settled=1\njob=1\nlow=0\nhigh=6\natleast=ps1,8\natmost=ps1,12\n");
}

#[test]
fn p2_is_printed_whole() {
    let steps = "ask=offer\nstart=3\nfinish=7\nask=offer\nstart=16\nstart=auto\nfinish=16\nfinish=13\nask=offer\n";
    let answers = "offer=0,6\nstarted=1,1,3\nfinal=1,1,7\noffer=11,15\nrefused=8,0\nstarted=2,1,11\nrefused=9,0\nfinal=2,1,13\noffer=20,23\n";
    assert_eq!(dispatch(&(p(100, 4, &BOUNDS) + steps)), answers);
}

#[test]
fn p3_to_p14_have_their_verdicts() {
    for (name, text, answer) in [
        ("P3", p(100, 4, &["ns1,ts1,9"]), "refused=4,8"),
        ("P4", p(7, 4, &["ns1,ts1,9"]), "refused=4,8"),
        ("P5", p(6, 4, &["ns1,ts1,9"]), "refused=5,6"),
        ("P6", p(100, 10, &BOUNDS), "settled=1"),
        ("P7", p(100, 11, &BOUNDS), "refused=4,1"),
        ("P8", p(100, 4, &["ns1,ts1,5", "ts1,ns1,-10"]), "refused=4,2"),
        ("P9", p(100, 4, &["tf1,ts1,4"]), "settled=1"),
        ("P10", p(100, 4, &["tf1,ts1,3"]), "refused=4,1"),
        ("P11", p(100, 4, &["ts1,tf1,-2"]), "settled=1"),
        ("P12", p(100, 4, &["ts1,tf1,-3"]), "refused=4,1"),
        ("P13", plan(30, 100, &[(5, 8, 0, 30), (0, 0, 0, 30)], &["ts2,ts1,6"]), "refused=4,1"),
        ("P14", plan(30, 100, &[(5, 8, 0, 30), (0, 0, 0, 30)], &["ts2,ts1,8"]), "settled=1"),
        ("empty", String::new(), "refused=1,1"),
    ] {
        assert_eq!(verdict(&text), answer, "{name}");
    }
    assert_eq!(calendar(&p(100, 10, &BOUNDS)), "settled=1\njob=1\nlow=0\nhigh=0\n");
}

#[test]
fn plans_tell_right_from_nearly_right() {
    for (text, answer) in [
        (plan(6, 1000, &[(3, 3, 0, 6), (0, 1, 0, 6)], &["nf2,ts2,9"]), "settled=2"),
        (plan(4, 1000, &[(2, 3, 0, 7), (0, 0, 4, 5)], &["nf2,tf1,6"]), "settled=1"),
        (plan(4, 1000, &[(0, 0, 0, 4), (2, 3, 0, 4)], &["ns2,ts1,7"]), "settled=1"),
        (plan(1, 1000, &[(1, 3, 0, 3)], &[]), "refused=4,2"),
        (plan(1, 1, &[(1, 3, 0, 3)], &[]), "refused=5,1"),
        (plan(3, 1000, &[(0, 0, 0, 3)], &["ns1,ts1,2"]), "refused=4,5"),
        (plan(3, 4, &[(0, 0, 0, 3)], &["ns1,ts1,2"]), "refused=4,5"),
        (plan(3, 3, &[(0, 0, 0, 3)], &["ns1,ts1,2"]), "refused=5,3"),
    ] {
        assert_eq!(verdict(&text), answer, "{text}");
    }
}

/// Example 1 of document 002, its first inequality read as Figure 4 uses it.
fn example_1() -> String {
    let bounds = ["ts2,tf1,5", "tf1,nf1,-15", "nf1,tf1,25", "tf2,nf2,-18", "nf2,tf2,22"];
    plan(20, 1000, &[(5, 8, 0, 20), (8, 10, 0, 20)], &bounds)
}

#[test]
fn example_1_settles_in_round_2() {
    let lines = calendar(&example_1());
    let kept: Vec<&str> = lines.lines().filter(|line| !line.starts_with("at")).collect();
    assert_eq!(kept, ["settled=2", "job=1", "low=0", "high=2", "job=2", "low=8", "high=10"]);
}

/// The first three rows of Figure 4 as offers, for every start on offer and every running time.
#[test]
fn figure_4_is_offered() {
    for s1 in 0..=2 {
        for f1 in s1 + 5..=s1 + 8 {
            let (low2, high2) = (8.max(f1), 10.min(f1 + 5));
            for s2 in low2..=high2 {
                for f2 in s2 + 8..=s2 + 10 {
                    let (low3, high3) = (20.max(f1 + 10).max(f2), 22.min(f1 + 17).min(f2 + 4));
                    let steps = format!("ask=offer\nstart={s1}\nfinish={f1}\nask=offer\nstart={s2}\nfinish={f2}\nask=offer\n");
                    let answers = format!(
                        "offer=0,2\nstarted=1,1,{s1}\nfinal=1,1,{f1}\noffer={low2},{high2}\nstarted=1,2,{s2}\nfinal=1,2,{f2}\noffer={low3},{high3}\n"
                    );
                    assert_eq!(dispatch(&(example_1() + &steps)), answers);
                }
            }
        }
    }
}

#[test]
fn the_first_faulty_line_decides() {
    let good = p(100, 4, &BOUNDS);
    let edited = |old: &str, new: &str| {
        assert!(good.contains(old));
        verdict(&good.replacen(old, new, 1))
    };
    for (old, new, answer) in [
        ("window=10", "window=-5", "refused=2,1"),
        ("window=10", "window=0", "refused=2,1"),
        ("window=10", "window=86400001", "refused=2,1"),
        ("window=10", "window=010", "refused=1,1"),
        ("window=10", "window=-0", "refused=1,1"),
        ("window=10", "window=+10", "refused=1,1"),
        ("window=10", "window=", "refused=1,1"),
        ("window=10", "window=10\r", "refused=1,1"),
        ("window=10", "Window=10", "refused=1,1"),
        ("rounds=100", "rounds=1001", "refused=2,2"),
        ("last=1000", "last=1000000001", "refused=2,3"),
        ("jobs=1", "jobs=10", "refused=2,4"),
        ("min=2", "min=5", "refused=2,6"),
        ("max=4", "max=86400001", "refused=2,6"),
        ("release=0", "release=172800001", "refused=2,7"),
        ("release=0", "release=172800000", "refused=4,1"),
        ("deadline=10", "deadline=-1", "refused=2,8"),
        ("bounds=2", "bounds=65", "refused=2,9"),
        ("bounds=2", "bounds=3", "refused=1,12"),
        ("bound=ns1,ts1", "bound=ns0,ns0", "refused=2,10"),
        ("bound=ns1,ts1", "bound=ns1,ts2", "refused=2,10"),
        ("bound=ns1,ts1", "bound=ns1,nf1", "refused=3,10"),
        ("bound=ns1,ts1", "bound=ts1,ts1", "refused=3,10"),
        ("bound=ns1,ts1", "bound=ts1,ns1", "refused=3,11"),
        ("bound=ns1,ts1", "bound=ns10,ts1", "refused=1,10"),
        ("bound=ns1,ts1", "bound=ps1,ts1", "refused=1,10"),
        ("ns1,ts1,12", "ns1,ts1,1000000001", "refused=2,10"),
        ("ns1,ts1,12", "ns1,ts1,1000000000", "settled=1"),
    ] {
        assert_eq!(edited(old, new), answer, "{new}");
    }
    assert_eq!(calendar(&(good.clone() + "\n")), "refused=1,12\n");
    assert_eq!(calendar(&edited_end(&good)), "refused=1,11\n");
    assert_eq!(calendar(&p(100, 4, &["ns1,ts1,9", "ts1,ns1,-8", "ns1,ts1,1000000001"])), "refused=2,12\n");
}

/// The plan without its last LF.
fn edited_end(text: &str) -> String {
    text.trim_end().to_string()
}

#[test]
fn a_text_of_65536_bytes_is_read() {
    let plan = p(100, 4, &BOUNDS);
    let mut steps = "ask=offer\n".repeat((65_536 - plan.len()) / 10 - 4);
    let rest = 65_536 - plan.len() - steps.len();
    steps += &format!("start={}\n", "9".repeat(rest - 7));
    let text = plan + &steps;
    assert_eq!(text.len(), 65_536);
    let answers = dispatch(&text);
    assert!(answers.starts_with("offer=0,6\noffer=0,6\n"));
    assert_eq!(answers.lines().last().unwrap(), format!("refused=2,{}", text.lines().count()));
    assert_eq!(dispatch(&(text.clone() + "\n")), "refused=1,0\n");
    assert_eq!(calendar(&(text + "\n")), "refused=1,0\n");
    assert_eq!(calendar(&"\n".repeat(65_537)), "refused=1,0\n");
}

#[test]
fn steps_are_refused_in_order() {
    let text = p(100, 4, &BOUNDS).replace("last=1000", "last=1");
    for (steps, answers) in [
        ("finish=0\n", "refused=7,0\n"),
        ("start=7\nstart=0\nask=offer\nstart=3\n", "refused=8,0\nstarted=1,1,0\nrefused=6,0\nrefused=6,0\n"),
        ("start=0\nfinish=1\nfinish=5\nfinish=4\n", "started=1,1,0\nrefused=9,0\nrefused=9,0\nfinal=1,1,4\n"),
        (
            "start=6\nfinish=10\nask=offer\nstart=auto\nstart=100000000000000000\nfinish=10\n",
            "started=1,1,6\nfinal=1,1,10\nrefused=10,0\nrefused=10,0\nrefused=10,0\nrefused=7,0\n",
        ),
        ("ask=offer\nask=offers\nask=offer\n", "offer=0,6\nrefused=1,13\n"),
        ("ask=offer\nstart=100000000000000001\n", "offer=0,6\nrefused=2,13\n"),
        ("finish=-1\nask=offer\n", "refused=2,12\n"),
        ("ask=offer\nask=offer", "offer=0,6\nrefused=1,13\n"),
        ("ask=offer\n\nask=offer\n", "offer=0,6\nrefused=1,13\n"),
    ] {
        assert_eq!(dispatch(&(text.clone() + steps)), answers, "{steps}");
    }
    assert_eq!(dispatch(&(p(100, 11, &BOUNDS) + "nonsense")), "refused=4,1\n");
}
