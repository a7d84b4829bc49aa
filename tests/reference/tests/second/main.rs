//! The second simulator's stored traces: this implementation agrees with them in every bit, and each way
//! of running finds a value that isn't as the trace has it.

use reference::build::{at_clk, later, module, num, v};
use reference::calls::{Calls, Reference};
use reference::encode::encode;
use reference::module::{Expr, Operator, Stmt};
use reference::random::Random;
use reference::samples;
use reference::second::check;
use reference::sheet::read;
use reference::simulator::{PlainRun, Verdict};
use reference::state::{MOST, State, USERS};
use reference::trace::{Trace, parse};
use reference::value::Value;
use reference::{stimulus, verilog};

const STORED: &str = include_str!("../../../data/second.trace");

fn traces() -> Vec<Trace> {
    parse(STORED).expect("traces")
}

fn checked(trace: &Trace) -> Result<(), String> {
    let reading = read(&trace.sheet);
    check(&Reference::new(&reading), trace, &mut Random::new(7)).map(|_| ())
}

// ---- traces

#[test]
fn stored_traces_are_these_bench_modules_and_random_ones() {
    let traces = traces();
    for (bench, trace) in samples::ALL.iter().zip(&traces) {
        assert_eq!((bench.name, bench.sheet()), (&trace.name[..], trace.sheet.clone()));
    }
    assert!(traces.len() >= 304);
}

/// Known registers come up in most modules, and with known bits beside unknown ones in many.
#[test]
fn stored_traces_have_values_of_every_kind() {
    let with = |found: fn(&Value) -> bool| {
        let registers = |trace: &&Trace| {
            trace.cycles.iter().any(|cycle| cycle.after.registers.iter().any(found))
        };
        traces().iter().filter(registers).count()
    };
    let known = with(|value| value.is_known());
    let some = with(|value| !value.is_known() && value.holds());
    assert!(known >= 250 && some >= 150, "{known} {some}");
    let inputs = traces().into_iter().flat_map(|trace| trace.cycles);
    let inputs: Vec<Value> = inputs.flat_map(|cycle| cycle.inputs).collect();
    let blurred = inputs.iter().filter(|value| !value.is_known()).count();
    assert!(20 * blurred > inputs.len() && 2 * blurred < inputs.len(), "{blurred}");
}

#[test]
fn the_reference_agrees_with_every_trace() {
    for trace in traces() {
        assert_eq!(checked(&trace), Ok(()), "{}", trace.name);
    }
}

#[test]
fn text_is_read_as_it_was_written() {
    let traces = traces();
    let text: String = traces.iter().map(Trace::to_string).collect();
    assert_eq!(parse(&text), Ok(traces));
    assert_eq!(parse("sheet 00\n"), Err(1));
    assert_eq!(parse("# text\nmodule a\nsheet 0g\n"), Err(3));
    assert_eq!(parse("module a\n1|2|3\n"), Err(2));
}

// ---- values that aren't as the trace has them

/// A value with its lowest bit another: 0 to 1, 1 to x, x to 0.
fn turn(values: &mut [Value], random: &mut Random) -> bool {
    if values.is_empty() {
        return false;
    }
    let place = random.below(values.len());
    let value = &mut values[place];
    match (value.number & 1, value.unknown & 1) {
        (0, 0) => value.number |= 1,
        (1, _) => (value.number, value.unknown) = (value.number - 1, value.unknown | 1),
        _ => value.unknown -= 1,
    }
    true
}

#[test]
fn a_changed_value_is_found() {
    let mut random = Random::new(3);
    let mut found = [0; 3];
    for trace in traces().iter().skip(1) {
        let part = random.below(3);
        let mut changed = trace.clone();
        let cycle = random.below(changed.cycles.len());
        let after = &mut changed.cycles[cycle].after;
        let numbers = [&mut after.low, &mut after.registers, &mut after.wires];
        if turn(numbers.into_iter().nth(part).expect("three parts"), &mut random) {
            let difference = checked(&changed).expect_err("one value is another");
            assert!(difference.contains(&format!("cycle {cycle}: ")), "{difference}");
            found[part] += 1;
        }
    }
    assert!(found.iter().all(|&count| count > 50), "{found:?}");
}

/// Calls of the reference but for one, which hands back what it got.
struct Idle<'a>(Reference<'a>, &'static str);

impl Calls for Idle<'_> {
    fn start(&self, state: &mut State, allowances: [u32; USERS]) -> u8 {
        self.0.start(state, allowances)
    }
    fn choose(&self, state: &mut State, user: u8, choice: u8) -> u8 {
        self.0.choose(state, user, choice)
    }
    fn run(&self, state: &mut State, user: u8, choices: &[u8]) -> (usize, u8) {
        self.0.run(state, user, choices)
    }
    fn run_plain(&self, state: &mut State, user: u8, limit: u16) -> PlainRun {
        let idle = PlainRun { accepted: 0, number: 0, verdict: Verdict::Quiet };
        if self.1 == "run_plain" { idle } else { self.0.run_plain(state, user, limit) }
    }
    fn instant(&self, state: &mut State, inputs: &[Value]) -> u8 {
        self.0.instant(state, inputs)
    }
    fn run_cycles(&self, state: &mut State, user: u8, inputs: &[Vec<Value>]) -> (usize, u8) {
        match self.1 {
            "run_cycles" => (2 * inputs.len(), 0),
            _ => self.0.run_cycles(state, user, inputs),
        }
    }
    fn extract(&self, nodes: &mut [u16], rows: &mut [u16]) -> u8 {
        self.0.extract(nodes, rows)
    }
    fn cycle(
        &self,
        nodes: &[u16],
        rows: &[u16],
        lane: &mut reference::compiler::Lane,
        inputs: &[Value],
    ) -> u8 {
        if self.1 == "cycle" { 0 } else { self.0.cycle(nodes, rows, lane, inputs) }
    }
}

#[test]
fn a_call_that_does_nothing_is_found() {
    let watchdog = &traces()[2];
    let reading = read(&watchdog.sheet);
    for (call, way) in [
        ("run_plain", "plain run, "),
        ("run_cycles", "many cycles by events: "),
        ("cycle", "expressions, "),
    ] {
        let idle = Idle(Reference::new(&reading), call);
        let difference = check(&idle, watchdog, &mut Random::new(1)).expect_err(call);
        assert!(difference.starts_with(way), "{difference}");
    }
}

// ---- Verilog

#[test]
fn the_flip_flop_as_verilog() {
    let module = read(&samples::FLIP_FLOP.sheet()).expect("accepted");
    let text = "\
module walbryts (i0, i1);
  input i0;
  input [7:0] i1;
  reg [7:0] r0;
  always @(posedge i0) begin
    r0 <= i1;
  end
endmodule
";
    assert_eq!(verilog::text(&module), text);
}

#[test]
fn a_sequence_in_front_of_another_as_verilog() {
    let sheet = [1, 1, 0, 1, 1, 1, 0x0C, 0x0C, 0x23, 1, 2, 0, 0, 0x10, 1, 1, 0];
    let text = "\
module walbryts (i0);
  input i0;
  reg r0;
  always begin
    begin
      r0 <= i0;
      begin end
    end
    @(posedge i0);
  end
endmodule
";
    assert_eq!(verilog::text(&read(&sheet).expect("accepted")), text);
}

#[test]
fn a_long_text() {
    let module = stimulus::deep_module();
    assert_eq!(read(&encode(&module)).as_ref(), Ok(&module));
    assert!(verilog::text(&module).len() > 130_000);
}

// ---- x

/// Where r0 is x, `r0 & 0` is 0, so that the condition holds.
#[test]
fn known_bits_come_out_of_unknown_ones() {
    let zero = || num(8, 0);
    let condition = Expr::Operation(
        Operator::Equal,
        vec![Expr::Operation(Operator::And, vec![v(1), zero()]), zero()],
    );
    let branch = Stmt::if_else(condition, later(2, num(8, 1)), later(2, num(8, 2)));
    let reading = module(&[1], &[8, 8], vec![], vec![at_clk(vec![branch, later(1, zero())])]);
    let calls = Reference::new(&reading);
    let mut state = State::ZERO;
    calls.start(&mut state, MOST);
    assert_eq!(calls.run_cycles(&mut state, 0, &[vec![]]), (2, 0));
    assert_eq!(state.values[1..3], [Value::known(0), Value::known(1)]);
}
