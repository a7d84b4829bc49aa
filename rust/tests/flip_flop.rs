//! Document 01's flip-flop, choice by choice, by plain runs, by rows and by expressions.

mod common;

use common::{FLIP_FLOP, MOST, flip_flop};
use walbryts::{COMMIT, Inputs, Reason, Registers, Rows, Run, Value, Verdict, list};

#[test]
fn reads_and_lists() {
    let sheet = flip_flop();
    assert_eq!(sheet.bytes(), FLIP_FLOP);
    assert_eq!((sheet.inputs(), sheet.registers()), (2, 1));
    assert_eq!((sheet.wires(), sheet.threads()), (0, 1));
    assert_eq!(sheet.widths(), [1, 8, 8]);
    assert_eq!((sheet.register(0), sheet.wire(0)), (2, 3));
    let listing = "threads 1\n0 0 wait 1 0\n0 1 later 2 v1\n0 2 go 0\n";
    assert_eq!(sheet.list(), listing);
    assert_eq!(list(&FLIP_FLOP), listing);
    assert_eq!(list(&FLIP_FLOP[..4]), "refused 2\n");
}

#[test]
fn choice_by_choice() {
    let sheet = flip_flop();
    let mut state = sheet.start(MOST);
    sheet.instant(&mut state, &Inputs::from([0, 5])).unwrap();
    sheet.instant(&mut state, &Inputs::from([1, 5])).unwrap();
    assert_eq!((state.place(0), state.pending(0)), (1, None));
    sheet.choose(&mut state, 0, 0).unwrap();
    assert_eq!((state.place(0), state.pending(0)), (2, Some(Value::known(5))));
    assert_eq!(state.value(2), Value::all_unknown(8));
    sheet.choose(&mut state, 0, 0).unwrap();
    sheet.choose(&mut state, 0, COMMIT).unwrap();
    assert_eq!((state.place(0), state.pending(0)), (0, None));
    assert_eq!(state.value(2), Value::known(5));
    assert_eq!((state.time(), state.count(0)), (2, 3));
}

#[test]
fn runs_over_lists() {
    let sheet = flip_flop();
    let mut state = sheet.start(MOST);
    sheet.instant(&mut state, &Inputs::from([0, 7])).unwrap();
    sheet.instant(&mut state, &Inputs::from([1, 7])).unwrap();
    let whole = sheet.run(&mut state.clone(), 0, &[0, 0, COMMIT]).unwrap();
    assert_eq!(whole, Run { accepted: 3, stopped: None });
    let run = sheet.run(&mut state, 0, &[0, COMMIT, 0]).unwrap();
    assert_eq!((run.accepted, run.stopped.unwrap().reason()), (1, Reason::CommitTooEarly));
    let plain = sheet.run_plain(&mut state, 0, 1).unwrap();
    assert_eq!((plain.accepted, plain.verdict), (1, Verdict::Spent));
    let plain = sheet.run_plain(&mut state, 0, 5).unwrap();
    assert_eq!((plain.accepted, plain.verdict), (1, Verdict::Quiet));
    assert_eq!(state.value(2), Value::known(7));
}

#[test]
fn rows_agree_with_single_calls_and_expressions() {
    let sheet = flip_flop();
    let partly = Value { number: 0b1100_0001, unknown: 0b0010_1000 };
    let values = [Value::known(5), Value::all_unknown(8), partly, Value::known(255)];
    let mut rows = Rows::new(&sheet);
    assert!(rows.is_empty());
    for value in values {
        rows.push([value]).unwrap();
    }
    let mut many = sheet.start(MOST);
    let run = sheet.run_cycles(&mut many, 0, &rows).unwrap();
    assert_eq!((run.phases, run.stopped), (8, None));

    let tables = sheet.extract().unwrap();
    let mut single = sheet.start(MOST);
    let mut registers = Registers::start(&sheet);
    for value in values {
        for clock in [0, 1] {
            let inputs = Inputs::new(&[Value::known(clock), value]);
            sheet.instant(&mut single, &inputs).unwrap();
            sheet.run_plain(&mut single, 0, u16::MAX).unwrap();
        }
        sheet.cycle(&tables, &mut registers, &Inputs::new(&[value])).unwrap();
        assert_eq!(registers, Registers::of(&sheet, &single));
        assert_eq!(registers.value(0), value);
    }
    assert_eq!(many, single);

    let mut at_once = Registers::start(&sheet);
    let run = sheet.cycles(&tables, &mut at_once, &rows).unwrap();
    assert_eq!((run.accepted, run.stopped), (4, None));
    assert_eq!(at_once, registers);
}

/// Four users on one state: each choice is counted for its user alone, as far as its allowance
/// reaches; another goes on.
#[test]
fn users() {
    let sheet = flip_flop();
    let mut state = sheet.start([1, 5, 0, 1]);
    sheet.instant(&mut state, &Inputs::from([0, 7])).unwrap();
    sheet.instant(&mut state, &Inputs::from([1, 7])).unwrap();
    sheet.choose(&mut state, 0, 0).unwrap();
    for user in [0, 2] {
        let refusal = sheet.choose(&mut state, user, 0).unwrap_err();
        assert_eq!(refusal.reason(), Reason::UsedUp);
        let plain = sheet.run_plain(&mut state, user, 9).unwrap();
        assert_eq!((plain.accepted, plain.verdict), (0, Verdict::Full));
    }
    let plain = sheet.run_plain(&mut state, 3, 9).unwrap();
    assert_eq!((plain.accepted, plain.verdict), (1, Verdict::Full));
    assert_eq!(
        sheet.run(&mut state, 1, &[COMMIT]).unwrap(),
        Run { accepted: 1, stopped: None }
    );
    assert_eq!([0, 1, 2, 3].map(|user| state.count(user)), [1, 1, 0, 1]);
    assert_eq!([0, 1, 2, 3].map(|user| state.allowance(user)), [1, 5, 0, 1]);
    let kept = state.clone();
    let mut rows = Rows::new(&sheet);
    rows.push([1]).unwrap();
    let refused = [
        sheet.choose(&mut state, 4, 0).unwrap_err(),
        sheet.run(&mut state, 4, &[]).unwrap_err(),
        sheet.run_plain(&mut state, 255, 0).unwrap_err(),
        sheet.run_cycles(&mut state, 4, &rows).unwrap_err(),
    ];
    assert_eq!(refused.map(|refusal| refusal.reason()), [Reason::NoUser; 4]);
    assert_eq!(state, kept);
}
