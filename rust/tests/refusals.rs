//! Each refusal, by the nearest thing that is wrong in just this way.

mod common;

use common::{
    FLIP_FLOP, MOST, Part, flip_flop, later, list, repeat, set, sheet, variable, wait, when,
};
use walbryts::{
    COMMIT, Inputs, Reason, Refusal, Registers, Rows, Sheet, State, Tables, Value, Verdict,
};

// ---- 1 to 11: sheets

/// The flip-flop's bytes with one of them changed.
fn changed(at: usize, byte: u8) -> Vec<u8> {
    let mut bytes = FLIP_FLOP.to_vec();
    bytes[at] = byte;
    bytes
}

/// The flip-flop's counts and widths with another thread.
fn with_thread(thread: Vec<u8>) -> Vec<u8> {
    [&FLIP_FLOP[..7], &thread].concat()
}

/// 2 to the power of n assignments.
fn assignments(n: u32) -> Part {
    match n {
        0 => later(2, variable(1)),
        _ => [vec![0x0C], assignments(n - 1), assignments(n - 1)].concat(),
    }
}

#[test]
fn of_sheets() {
    let refused = [
        (vec![0; 8193], Reason::SheetTooLong, 8192),
        (vec![], Reason::EndsEarly, 0),
        (vec![0], Reason::Count, 0),
        (changed(4, 2), Reason::Width, 4),
        (changed(7, 0x0D), Reason::Map, 7),
        (changed(9, 0), Reason::Field, 9),
        (with_thread(vec![0x0C; 65]), Reason::Depth, 71),
        (changed(6, 9), Reason::WidthsDisagree, 12),
        (changed(13, 1), Reason::Target, 13),
        (with_thread(vec![0, 0]), Reason::BytesAfter, 8),
        (with_thread(assignments(8)), Reason::ThreadTooLong, 7),
    ];
    for (number, (bytes, reason, place)) in (1..).zip(refused) {
        let refusal = Sheet::read(&bytes).unwrap_err();
        assert_eq!((refusal.reason(), refusal.place()), (reason, Some(place)));
        assert_eq!(refusal.number(), number);
        assert_eq!(walbryts::list(&bytes), format!("refused {number}\n"));
    }
}

// ---- 12 to 21: extraction

/// A wait, then these.
fn thread(statements: &[Part]) -> Part {
    list(&[&[wait()], statements].concat())
}

#[test]
fn of_extraction() {
    let copy = || later(2, variable(1));
    let falls = vec![0x10, 1, 2, 0];
    let refused = [
        sheet(&[], &[thread(&[copy()]), thread(&[copy()])]),
        sheet(&[], &[thread(&[copy(), set(2, variable(1))])]),
        sheet(&[], &[thread(&[set(2, variable(1))]), thread(&[later(3, variable(2))])]),
        sheet(&[], &[list(&[falls, copy()])]),
        sheet(&[], &[list(&[copy(), wait()])]),
        sheet(&[], &[thread(&[repeat(variable(1), copy())])]),
        sheet(&[], &[thread(&[when(variable(0), copy())])]),
        sheet(&[variable(4)], &[thread(&[copy()])]),
        sheet(&[], &[list(&vec![wait(); 33])]),
        sheet(&[], &[thread(&vec![when(variable(1), copy()); 13])]),
    ];
    for (number, sheet) in (12..).zip(refused) {
        let refusal = sheet.extract().unwrap_err();
        assert_eq!((refusal.number(), refusal.place()), (number, None));
        let (tables, inputs) = (flip_flop().extract().unwrap(), Inputs::from([5]));
        assert_eq!(sheet.cycle(&tables, &mut Registers::start(&sheet), &inputs), Err(refusal));
    }
}

// ---- 22, 25, 31 to 36, 46 and 47: the simulation

/// The flip-flop with its clock just risen: the thread is enabled.
fn risen() -> State {
    let sheet = flip_flop();
    let mut state = sheet.start(MOST);
    sheet.instant(&mut state, &Inputs::from([0, 5])).unwrap();
    sheet.instant(&mut state, &Inputs::from([1, 5])).unwrap();
    state
}

/// A state with all ones for its time.
fn late(state: &State) -> State {
    let mut bytes = *state.save();
    bytes[969..977].fill(0xFF);
    State::load(&bytes).unwrap()
}

/// A state with another number for user 0's count, which has eight bytes.
fn counted(state: &State, count: u64) -> State {
    let mut bytes = *state.save();
    bytes[977..985].copy_from_slice(&count.to_le_bytes());
    State::load(&bytes).unwrap()
}

/// A state in which user 0's allowance is used up.
fn used_up(state: &State) -> State {
    counted(state, u32::MAX.into())
}

fn choosing(state: &State, choice: u8) -> Reason {
    let mut left = state.clone();
    let refusal = flip_flop().choose(&mut left, 0, choice).unwrap_err();
    assert_eq!(&left, state);
    let run = flip_flop().run(&mut left, 0, &[choice, 0]).map(|run| run.stopped.unwrap());
    assert_eq!(run.unwrap_or_else(|refused| refused), refusal);
    assert_eq!(&left, state);
    refusal.reason()
}

fn entering(state: &State, inputs: impl Into<Inputs>) -> Reason {
    let mut left = state.clone();
    let refusal = flip_flop().instant(&mut left, &inputs.into()).unwrap_err();
    assert_eq!(&left, state);
    refusal.reason()
}

/// Values that don't fit 8 bits: a number or marks too wide, or a number under a mark.
const UNFIT: [Value; 4] = [
    Value::known(256),
    Value { number: 0, unknown: 256 },
    Value::all_unknown(32),
    Value { number: 5, unknown: 4 },
];

#[test]
fn of_the_simulation() {
    let quiet = flip_flop().start(MOST);
    let mut unfit = quiet.clone();
    unfit.set_value(2, Value::known(256));
    assert_eq!(choosing(&quiet, 1), Reason::NoItem);
    assert_eq!(choosing(&quiet, 0), Reason::NotEnabled);
    assert_eq!(choosing(&quiet, COMMIT), Reason::NothingPending);
    assert_eq!(choosing(&risen(), COMMIT), Reason::CommitTooEarly);
    assert_eq!(choosing(&used_up(&risen()), 0), Reason::UsedUp);
    assert_eq!(choosing(&counted(&risen(), 1 << 32), 0), Reason::Unfit);
    assert_eq!(choosing(&unfit, 0), Reason::Unfit);
    for value in UNFIT {
        let mut state = quiet.clone();
        state.set_value(2, value);
        assert_eq!(choosing(&state, 0), Reason::Unfit, "{value:?}");
        assert_eq!(entering(&quiet, [Value::known(0), value]), Reason::Inputs, "{value:?}");
    }
    assert_eq!(entering(&quiet, [0]), Reason::Inputs);
    assert_eq!(entering(&quiet, [0; 300]), Reason::Inputs);
    assert_eq!(entering(&quiet, [0, 256]), Reason::Inputs);
    assert_eq!(entering(&risen(), [0, 5]), Reason::NotQuiet);
    assert_eq!(entering(&late(&quiet), [0, 5]), Reason::Full);
    assert_eq!(entering(&unfit, [0, 5]), Reason::Unfit);
}

#[test]
fn of_plain_runs_and_rows() {
    let sheet = flip_flop();
    let run = sheet.run_plain(&mut used_up(&risen()), 0, 9).unwrap();
    assert_eq!((run.accepted, run.verdict), (0, Verdict::Full));
    let mut unfit = sheet.start(MOST);
    unfit.set_value(2, Value::known(256));
    let reason = |refusal: Refusal| refusal.reason();
    let kept = unfit.clone();
    assert_eq!(sheet.run_plain(&mut unfit, 0, 9).map_err(reason), Err(Reason::Unfit));

    let mut rows = Rows::new(&sheet);
    rows.push([5]).unwrap();
    rows.push([256]).unwrap();
    assert_eq!(rows.push([1, 2]).map_err(reason), Err(Reason::Inputs));
    assert_eq!(rows.len(), 2);
    assert_eq!(sheet.run_cycles(&mut unfit, 0, &rows).map_err(reason), Err(Reason::Unfit));
    assert_eq!(unfit, kept);
    let run = sheet.run_cycles(&mut sheet.start(MOST), 0, &rows).unwrap();
    assert_eq!((run.phases, run.stopped.map(reason)), (2, Some(Reason::Inputs)));
    assert!(!run.running);
    let mut stopped = used_up(&sheet.start(MOST));
    let run = sheet.run_cycles(&mut stopped, 0, &rows).unwrap();
    assert_eq!(
        (run.phases, run.stopped.map(reason), run.running),
        (1, Some(Reason::UsedUp), true)
    );
    assert_eq!(stopped.time(), 2);
    let other = common::of_hex(common::WATCHDOG);
    let run = other.run_cycles(&mut other.start(MOST), 0, &rows).unwrap();
    assert_eq!((run.phases, run.stopped.map(reason)), (0, Some(Reason::Inputs)));
}

// ---- 23, 24, 25 and 31: cycles by expressions

#[test]
fn of_cycles_by_expressions() {
    let sheet = flip_flop();
    let tables = sheet.extract().unwrap();
    let with_node = |kind| {
        let mut nodes = tables.nodes().to_vec();
        nodes[4 * 4095] = kind;
        Tables::of_words(nodes, tables.rows().to_vec())
    };
    let mut wide = Registers::start(&sheet);
    wide.set_value(0, Value::known(256));
    let mut under = Registers::start(&sheet);
    under.set_value(0, Value { number: 128, unknown: 255 });
    let mut astray = Registers::start(&sheet);
    astray.set_place(0, 1);
    let good = || Registers::start(&sheet);
    let refused = [
        (Tables::of_words(vec![0; 5], vec![]), good(), 5, Reason::TableLength),
        (with_node(99), good(), 5, Reason::Table),
        (with_node(0), wide, 5, Reason::Unfit),
        (with_node(0), under, 5, Reason::Unfit),
        (with_node(0), astray, 5, Reason::Unfit),
        (tables.clone(), good(), 256, Reason::Inputs),
    ];
    for (tables, registers, input, reason) in refused {
        let mut left = registers.clone();
        let refusal = sheet.cycle(&tables, &mut left, &Inputs::from([input])).unwrap_err();
        assert_eq!((refusal.reason(), &left), (reason, &registers));
        let mut rows = Rows::new(&sheet);
        rows.push([input]).unwrap();
        let many = sheet.cycles(&tables, &mut left, &rows);
        let stop = many.map_or_else(Some, |cycles| cycles.stopped);
        assert_eq!((stop, &left), (Some(refusal), &registers));
    }
}

// ---- words

#[test]
fn in_words() {
    let refusal = Sheet::read(&changed(9, 0)).unwrap_err();
    assert_eq!(refusal.to_string(), "refused 6 at byte 9: a field is out of range");
    let refusal = flip_flop().choose(&mut risen(), 0, COMMIT).unwrap_err();
    assert_eq!(refusal.to_string(), "refused 34: a commit while an item is enabled");
    let numbers: Vec<u8> = Reason::ALL.iter().map(|reason| reason.number()).collect();
    assert_eq!(
        numbers,
        (1..=25).chain(31..=36).chain(41..=43).chain(46..=49).collect::<Vec<u8>>()
    );
    for &reason in Reason::ALL {
        assert_eq!(Reason::of_number(reason.number()), Some(reason));
    }
    assert_eq!(Reason::of_number(0), None);
}
