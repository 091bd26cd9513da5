//! Each call once, on a program of two threads that meet; the expected texts are those of examples/ and docs/TRACES.md.
use std::collections::HashSet;
use vuthgal::{Choice, Entry, Fault, Gone, Input, Line, Mark, Mistake, Place, Session, State, Trace, Verdict, What, Word, Written};

const PROGRAM: &[u8] = include_bytes!("../../../examples/meeting.asm");
const SCHEDULE: &[u8] = include_bytes!("../../../examples/meeting.schedule");
const TRACE: &str = include_str!("../../../examples/meeting.trace");

#[test]
fn plays_and_compares() {
    assert_eq!(vuthgal::run(PROGRAM, SCHEDULE).unwrap(), TRACE);
    assert_eq!(vuthgal::run(&vuthgal::assemble(PROGRAM).unwrap(), SCHEDULE).unwrap(), TRACE);
    assert_eq!(vuthgal::run_text(include_bytes!("../../../examples/two-threads-meet.txt")).unwrap(), TRACE);
    assert_eq!(vuthgal::compare(PROGRAM, TRACE.as_bytes()).unwrap(), Verdict::Same);
    let other = TRACE.replacen("= 1", "= 2", 1);
    assert_eq!(vuthgal::compare(PROGRAM, other.as_bytes()).unwrap(), Verdict::Differs { line: 2 });
    assert_eq!(vuthgal::compare(PROGRAM, b"no").unwrap(), Verdict::NotATrace { line: 1 });
}

#[test]
fn plans_and_names() {
    let planned = vuthgal::plan(PROGRAM, b"a. b. a.").unwrap();
    assert_eq!((planned.schedule.as_str(), planned.stopped), ("t0 t1*3 t0*3", false));
    assert_eq!(vuthgal::choices(TRACE.as_bytes()).unwrap().schedule, "t0 t1 t0*3 t1*2");
    let some = vuthgal::plan_within(PROGRAM, b"t0 t1*3 t0*9", 5, Written::Names).unwrap();
    assert_eq!((some.schedule.as_str(), some.stopped), ("a b*3 a", true));
    let none = vuthgal::choices(b"1 t0 0 end\nhm\n").unwrap();
    assert_eq!((none.schedule.as_str(), none.no_line), ("t0", Some(2)));
}

#[test]
fn shows() {
    let page = vuthgal::page(PROGRAM, SCHEDULE, "<pre id=\"trace\">\n</pre>").unwrap();
    assert_eq!(page, format!("<pre id=\"trace\">\n{}</pre>", vuthgal::run(PROGRAM, SCHEDULE).unwrap()));
    assert!(vuthgal::draw(PROGRAM, SCHEDULE, 80).unwrap().starts_with("choice  a"));
    assert_eq!(vuthgal::debug(PROGRAM, b"k 1\ng t0 t1 t0 t0\nb\nq\n").unwrap(), "break 1\nat 2\nback 1\n");
    assert!(vuthgal::list(PROGRAM).unwrap().starts_with(".phaser p0 2\n"));
}

#[test]
fn tells() {
    let refused = vuthgal::run(b"ldi r8 1\n", b"").unwrap_err();
    assert!(matches!(&refused, Fault::Refused { line, .. } if line == "refused asm 1 5"));
    assert!(refused.to_string().contains("BadRegister"));
    assert!(vuthgal::explain("memory").unwrap().is_some());
    assert_eq!(vuthgal::explain("hm hm"), Ok(None));
    assert_eq!(vuthgal::version().lines().count(), 2);
}

#[test]
fn seeds_lead_to_ends() {
    let outcomes = vuthgal::seeds(PROGRAM, b"", 3..43, 0, Written::Names).unwrap();
    assert_eq!(outcomes.len(), 1);
    assert_eq!((outcomes[0].times, outcomes[0].word, outcomes[0].died, outcomes[0].seed), (40, Word::All, false, 3));
    let schedule = vuthgal::plan(PROGRAM, outcomes[0].schedule.as_bytes()).unwrap().schedule;
    assert!(vuthgal::run(PROGRAM, schedule.as_bytes()).unwrap().contains("state 7 7 all"));
    assert_eq!(vuthgal::seeds(PROGRAM, b"", 5..5, 0, Written::Numbers), Ok(Vec::new()));
}

#[test]
fn what_is_expected() {
    let state = TRACE.parse::<Trace>().unwrap().state;
    assert_eq!(vuthgal::expect(&state, "all"), Ok(true));
    assert_eq!(vuthgal::expect(&state, "t0 waits"), Ok(false));
    assert_eq!(vuthgal::expect(&state, "hm"), Err(Fault::Malformed { text: "hm".into() }));
}

fn turn(thread: u8) -> Choice {
    Choice { thread, expiry: false }
}

#[test]
fn a_session_goes_on() {
    let mut session = Session::open(PROGRAM).unwrap();
    let whole: Trace = TRACE.parse().unwrap();
    for line in &whole.lines {
        assert_eq!(session.step(line.choice.thread).as_ref(), Ok(line));
    }
    assert_eq!(session.state().as_ref(), Ok(&whole.state));
    for _ in &whole.lines {
        assert_eq!(session.back(), Ok(()));
    }
    assert_eq!(session.back(), Err(Fault::NoHistory));
    assert_eq!(session.state().unwrap().phasers[0].view, 0);
    assert_eq!(session.command("g t0 t1"), Ok("end 2\n".to_owned()));
    assert!(matches!(Session::open(b"ldi r8 1\n"), Err(Fault::Refused { line, .. }) if line == "refused asm 1 5"));
    std::thread::spawn(move || session.step(0).unwrap()).join().unwrap();
}

#[test]
fn what_is_wrong_has_a_name() {
    let mut session = Session::open(PROGRAM).unwrap();
    for thread in [2, 9, 63, 64, 255] {
        let none = Fault::NoThread { thread: format!("t{thread}") };
        assert_eq!(session.step(thread), Err(none.clone()));
        assert_eq!(session.waits_at(thread), Err(none.clone()));
        assert_eq!(session.other(turn(thread), "", 10), Err(none));
    }
    assert_eq!(session.expire(9), Err(Fault::NoThread { thread: "x9".into() }));
    assert_eq!(session.thread("c"), Err(Fault::NoThread { thread: "c".into() }));
    assert_eq!(session.command("hm"), Err(Fault::Malformed { text: "hm".into() }));
    assert_eq!(session.go("zz"), Err(Fault::Malformed { text: "g zz".into() }));
    assert_eq!(session.other(turn(0), "zz", 10), Err(Fault::Malformed { text: "zz".into() }));
    assert_eq!(session.go("t1 t9"), Ok(Gone::Refused { choices: 1, what: What::None }));
    assert_eq!(session.command("k 1"), Ok("break 1\n".into()));
    assert_eq!(session.go("t0*9"), Ok(Gone::Break { choices: 1 }));
    assert_eq!(session.go("t1*4"), Ok(Gone::Break { choices: 1 }));
    assert_eq!(session.go("t1*4"), Ok(Gone::End { choices: 4 }));
    assert_eq!(session.state().unwrap().choices, 7);
}

#[test]
fn a_copy_goes_on_alone() {
    let mut first = Session::open(PROGRAM).unwrap();
    assert_eq!((first.names(), first.thread("b")), (&["a".to_owned(), "b".to_owned()][..], Ok(1)));
    assert_eq!(first.enabled().collect::<Vec<_>>(), [turn(0), turn(1)]);
    first.step(0).unwrap();
    assert_eq!((first.enabled().len(), first.enabled().contains(turn(0)), first.enabled().contains(turn(1))), (1, false, true));
    assert_eq!((first.waits_at(0), first.waits_at(1)), (Ok(Some(Place::Phaser(0))), Ok(None)));
    let mut second = first.copy().unwrap();
    assert_eq!((second.state(), second.fingerprint()), (first.state(), first.fingerprint()));
    assert_eq!(second.back(), Err(Fault::NoHistory));
    assert_eq!(second.step(1).unwrap().mark, Some(Mark::PhaseEnded { root: 0, view: 1 }));
    assert_eq!((first.state().unwrap().choices, second.enabled().len()), (1, 2));
    assert_eq!(first.other(turn(1), "t0*3", 100), Ok("t1*3 t0*3".into()));
    let mut seen = HashSet::new();
    assert!(seen.insert(first.fingerprint().unwrap()) && seen.insert(second.fingerprint().unwrap()));
    second.back().unwrap();
    assert!(!seen.insert(second.fingerprint().unwrap()));
}

#[test]
fn a_timed_wait_can_expire() {
    let mut session = Session::open(include_bytes!("../../../examples/timed-wait.asm")).unwrap();
    let expiry = (0..20).find_map(|_| session.enabled().find(|it| it.expiry).or_else(|| session.step(0).map(|_| None).unwrap()));
    let line = session.play(expiry.unwrap()).unwrap();
    assert_eq!((line.what, line.choice.to_string()), (What::Throw, "x0".into()));
}

/// Each value prints as the trace has it, and a state that is looked at is the one that is read.
#[test]
fn values_are_those_of_each_trace() {
    let mut seen = 0;
    for folder in ["", "lessons/", "tutorial/"] {
        for file in std::fs::read_dir(format!("../../examples/{folder}")).unwrap() {
            let file = file.unwrap().path();
            if file.extension().map_or(true, |it| it != "trace") {
                continue;
            }
            let text = std::fs::read_to_string(&file).unwrap();
            let trace: Trace = text.parse().unwrap();
            assert_eq!(trace.to_string(), text);
            let program = match std::fs::read(file.with_extension("asm")) {
                Ok(program) => program,
                Err(_) => continue,
            };
            let mut session = Session::open(&program).unwrap();
            for line in &trace.lines {
                match session.play(line.choice) {
                    Ok(played) => assert_eq!(&played, line),
                    Err(fault) => assert_eq!((line.what, fault), (What::None, Fault::NoThread { thread: line.choice.to_string() })),
                }
            }
            assert_eq!(session.state().unwrap(), trace.state);
            assert_eq!(session.enabled().len() == 0, trace.state.word != Word::Live);
            seen += 1;
        }
    }
    assert!(seen >= 10, "{seen}");
}

#[test]
fn a_trace_is_read() {
    let trace: Trace = TRACE.parse().unwrap();
    assert_eq!((trace.lines[1].mark, trace.lines[1].view()), (Some(Mark::PhaseEnded { root: 0, view: 1 }), Some(1)));
    assert_eq!((trace.lines[1].what, trace.lines[1].value), (What::Result, Some(1)));
    assert_eq!((trace.state.word, trace.state.phasers[0].parties, trace.state.threads[0].out[0]), (Word::All, 2, 1));
    for text in ["", "1 t0 0 = 0\n", "state 1\n", "state 1 1 all\nt0 0\n", "hm\nstate 1 1 all\n", "\nstate 1 1 all\n"] {
        assert!(text.parse::<Trace>().is_err(), "{text}");
    }
    for text in ["01 t0 0 end", "1 t05 0 wait", "1 t0 0 wait ", "1 t0 0 hm", "1 t0 0 ok +b0 1", "1 t0 0 end\n", "?", ""] {
        assert!(text.parse::<Line>().is_err(), "{text}");
    }
    let stack: Vec<Entry> = ["C5", "H7", "A0", "X2"].iter().map(|it| it.parse().unwrap()).collect();
    assert_eq!((stack[0], stack[3]), (Entry::Call { row: 5 }, Entry::Action { barrier: 2 }));
    assert!(["", "C", "Z1", "\u{e9}1"].iter().all(|it| it.parse::<Entry>().is_err()));
    let cells = "state 1 1 live\nt0 0 runs 0 regs 0 0 0 0 0 0 0 0 stack A0 out\nb0 1 0\nc3 -7\n";
    assert_eq!(cells.parse::<State>().unwrap().cells[&3], -7);
    for text in [cells.replace("-7", "-7 "), cells.replace("c3", "c03"), cells.replace("b0 1 0", "b0 1 2"), cells.trim().to_owned()] {
        assert!(text.parse::<State>().is_err(), "{text}");
    }
}

#[test]
fn nothing_panics_at_a_threads_end() {
    struct Late;
    impl Drop for Late {
        fn drop(&mut self) {
            assert_eq!(vuthgal::run(PROGRAM, SCHEDULE).unwrap(), TRACE);
        }
    }
    thread_local!(static LATE: Late = Late);
    std::thread::spawn(|| {
        LATE.with(|_| vuthgal::run(PROGRAM, SCHEDULE).unwrap());
        vuthgal::free_room();
    })
    .join()
    .unwrap();
}

#[test]
fn finds_mistakes() {
    assert_eq!(vuthgal::mistake(PROGRAM, Input::Program), Ok(None));
    let found = vuthgal::mistake(b"ldi r8 1\n", Input::Program).unwrap().unwrap();
    assert_eq!((found.told.as_str(), found.line, found.column, found.length, found.is_in_steps), ("refused asm 1 5", 1, 5, 2, false));
    assert_eq!(found.hint, "help: the registers are r0 to r7: a small r and one digit");
    let found = vuthgal::mistake(PROGRAM, Input::Schedule(b"t0\nt1;")).unwrap().unwrap();
    assert_eq!((found.told.as_str(), found.line, found.column, found.is_in_steps), ("refused schedule 1 5", 2, 3, true));
}

#[test]
fn goes_to_any_choice() {
    let mut session = vuthgal::Session::open(PROGRAM).unwrap();
    assert_eq!(session.go_to("t0 t1 t0", 2), Ok(()));
    assert_eq!(session.state().unwrap().choices, 2);
    assert_eq!(session.go_to("t0", 2), Err(Fault::Malformed { text: "t0".into() }));
    assert_eq!(session.go_to("t9", 1), Err(Fault::NoThread { thread: "t9".into() }));
    assert_eq!(session.state().unwrap().choices, 2);
}

#[test]
fn plays_plans() {
    let mut session = Session::open(PROGRAM).unwrap();
    session.step(1).unwrap();
    session.command("k 1").unwrap();
    let planned = session.play_plan("a. b. a.", 1_000_000).unwrap();
    assert_eq!((planned.schedule.as_str(), planned.choices(), planned.stopped), ("t0 t1*3 t0*3", 7, false));
    let trace: Trace = vuthgal::run(PROGRAM, planned.schedule.as_bytes()).unwrap().parse().unwrap();
    assert_eq!(session.state(), Ok(trace.state));
    assert!(session.play_plan("a b*3 a*9", 5).unwrap().stopped);
    let hint = "near: a".to_owned();
    let mistake = Mistake { told: "refused plan 2 4".into(), line: 2, column: 5, length: 2, is_in_steps: true, hint };
    match session.play_plan("a.\n(b. aa)*2", 9).unwrap_err() {
        Fault::Refused { line, mistake: Some(found), .. } => assert_eq!((line.as_str(), *found), ("refused plan 2 4", mistake)),
        other => panic!("{other:?}"),
    }
    assert_eq!(session.state().unwrap().choices, 5);
    let mut copy = session.copy().unwrap();
    assert_eq!(copy.play_plan("t0 t1*3 b.", 9).unwrap().schedule, "t0 t1*3");
    assert_eq!((copy.state().unwrap().choices, session.state().unwrap().choices), (4, 5));
}
