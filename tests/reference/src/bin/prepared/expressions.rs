//! Clock cycles by expressions that were prepared.

use reference::compiler::Lane;
use reference::extraction::{NODE_WORDS, ROW_WORDS};
use reference::lanes;
use reference::library::plans::{Rows, TRACE_ROW};
use reference::library::{self, Inputs, Planes, SAVED, rows_of_16};
use reference::module::Module;
use reference::saved::load;
use reference::state::{MARKS, VALUES};
use reference::value::Value;

use crate::{Comparison, Outcome, same};

const CALLS: usize = 8;
const UNWRITTEN: u64 = 0xA5A5_A5A5_A5A5_A5A5;

/// The tables of a sheet, as extracted or damaged.
struct Tables {
    nodes: Vec<u16>,
    rows: Vec<u16>,
}

pub fn hold(comparison: &mut Comparison, sheet: &[u8], module: Option<&Module>) -> Outcome {
    let mut tables = Tables { nodes: vec![0; NODE_WORDS], rows: vec![0; ROW_WORDS] };
    let extracted = library::extract(sheet, &mut tables.nodes, &mut tables.rows);
    let own = [tables.nodes.clone(), tables.rows.clone()];
    let expected = damaged(comparison, &mut tables, extracted);
    let whole = own == [&tables.nodes[..], &tables.rows[..]];
    let before = comparison.clock.clone();
    let number = comparison.clock.prepare(sheet, &tables.nodes, &tables.rows);
    comparison.meet("clock_prepare", number);
    if number != 0 && comparison.clock != before {
        return Err("a refused clock_prepare altered its tables".into());
    }
    let Some(module) = module.filter(|_| extracted == 0) else {
        return same("clock_prepare", expected, number);
    };
    let mut turn = Turn { comparison, sheet, module, tables };
    if number != 0 {
        let lane = lanes::fitting(module, &mut turn.comparison.random);
        let inputs = lanes::inputs(module, &mut turn.comparison.random);
        return same("clock_prepare", turn.cycle(&mut lane.clone(), &inputs), number);
    }
    for _ in 0..CALLS {
        turn.call()?;
    }
    if whole { turn.beside_events() } else { Ok(()) }
}

/// Now and then a table of another length, or one with a word changed; the number of tables as they
/// were extracted, or of lengths.
fn damaged(comparison: &mut Comparison, tables: &mut Tables, extracted: u8) -> u8 {
    let random = &mut comparison.random;
    match random.below(24) {
        0 => {
            tables.nodes.pop();
            23
        }
        1 => {
            tables.rows.push(0);
            23
        }
        2 => {
            let at = random.below(64);
            tables.nodes[at] = tables.nodes[at].wrapping_add(1);
            extracted
        }
        3 => {
            let at = random.below(66);
            tables.rows[at] = random.pick(&[0, 1, 4095, 4096]);
            extracted
        }
        _ => extracted,
    }
}

struct Turn<'a> {
    comparison: &'a mut Comparison,
    sheet: &'a [u8],
    module: &'a Module,
    tables: Tables,
}

impl Turn<'_> {
    /// A cycle on the sheet; the number.
    fn cycle(&self, lane: &mut Lane, inputs: &[Value]) -> u8 {
        let mut planes = Planes::of(lane);
        let Tables { nodes, rows } = &self.tables;
        let number = library::cycle(self.sheet, nodes, rows, &mut planes, &Inputs::of(inputs));
        *lane = planes.lane();
        number
    }

    /// Registers that fit or not; a cycle, many, and a trace, by both.
    fn call(&mut self) -> Outcome {
        let (module, random) = (self.module, &mut self.comparison.random);
        let mut lane = lanes::fitting(module, random);
        if random.chance(1, 4) {
            lanes::disturb(&mut lane, module, random);
        }
        let inputs = match random.chance(1, 4) {
            true => lanes::bad_inputs(module, random),
            false => lanes::inputs(module, random),
        };
        let mut rows = rows_of_16(&lanes::some_inputs(module, random));
        if random.chance(1, 24) {
            rows.1.push(0);
        }
        self.one(&lane, &inputs)?;
        self.many(&lane, &rows)?;
        self.trace(&lane, &rows)
    }

    fn one(&mut self, lane: &Lane, inputs: &[Value]) -> Outcome {
        let (mut expected, mut found) = (lane.clone(), Planes::of(lane));
        let number = self.cycle(&mut expected, inputs);
        let clock = &self.comparison.clock;
        same("cycle", number, clock.cycle(&mut found, &Inputs::of(inputs)))?;
        same("cycle's lane", expected, found.lane())
    }

    fn many(&mut self, lane: &Lane, rows: &Rows) -> Outcome {
        let (mut expected, mut found) = (Planes::of(lane), Planes::of(lane));
        let Tables { nodes, rows: table } = &self.tables;
        let run = library::cycles(self.sheet, nodes, table, &mut expected, &rows.0, &rows.1);
        self.comparison.meet("clock_cycles", run.1);
        same("cycles", run, self.comparison.clock.cycles(&mut found, rows))?;
        same("cycles' lane", expected.lane(), found.lane())
    }

    /// What the trace answers is what the cycles do; its second rows are what single cycles give.
    fn trace(&mut self, lane: &Lane, rows: &Rows) -> Outcome {
        let needed = 2 * TRACE_ROW * (rows.0.len() / 16);
        let words = match self.comparison.random.below(8) {
            0 => needed.saturating_sub(1),
            1 => needed + 100,
            _ => needed,
        };
        let mut trace = vec![UNWRITTEN; words];
        let (mut expected, mut found) = (Planes::of(lane), Planes::of(lane));
        let run = match words / TRACE_ROW < needed / TRACE_ROW {
            true => (0, 23),
            false => self.comparison.clock.cycles(&mut expected, rows),
        };
        (expected.wire, expected.unsure) = (found.wire, found.unsure);
        let clock = &self.comparison.clock;
        same("clock_trace", run, clock.trace(&mut found, rows, &mut trace))?;
        same("clock_trace's lane", expected.lane(), found.lane())?;
        self.comparison.meet("clock_trace", run.1);
        let (written, behind) = trace.split_at(2 * TRACE_ROW * run.0);
        if behind.iter().any(|&word| word != UNWRITTEN) {
            return Err("clock_trace: words behind the rows are written".into());
        }
        let mut at = lane.clone();
        for (cycle, both) in written.chunks(2 * TRACE_ROW).enumerate() {
            let given = self.row_of(rows, cycle);
            let (low, high) = both.split_at(TRACE_ROW);
            let [expected, found] = self.registers(low, &at);
            same("clock_trace's registers before", expected, found)?;
            same("clock_trace's cycle", self.cycle(&mut at, &given), 0)?;
            let [expected, found] = self.registers(high, &at);
            same("clock_trace's registers", expected, found)?;
            same("clock_trace's wires", at.wires, self.wires(high))?;
            same("clock_trace's clock", (both[0], high[0]), (0, 1))?;
        }
        Ok(())
    }

    /// The inputs of a row, from 1 up.
    fn row_of(&self, (value, unknown): &Rows, row: usize) -> Vec<Value> {
        let input = |v| Value { number: value[16 * row + v], unknown: unknown[16 * row + v] };
        (1..usize::from(self.module.inputs)).map(input).collect()
    }

    /// The sheet's registers in a row of a trace, and those of a lane.
    fn registers(&self, row: &[u64], lane: &Lane) -> [Vec<Value>; 2] {
        let first = usize::from(self.module.inputs);
        let count = usize::from(self.module.registers);
        let found = row[first..first + count].iter().map(|&word| value(word)).collect();
        [lane.registers[..count].to_vec(), found]
    }

    fn wires(&self, row: &[u64]) -> [Value; MARKS] {
        let first = usize::from(self.module.inputs) + usize::from(self.module.registers);
        let count = self.module.wires.len();
        let wire = |w| if w < count { value(row[first + w]) } else { Value::NOWHERE };
        std::array::from_fn(wire)
    }

    // ---- events beside expressions, from the start on: every word that the sheet has

    fn beside_events(&mut self) -> Outcome {
        let module = self.module;
        let mut state = [0; SAVED];
        self.comparison.plan.start([u32::MAX; 4], &mut state);
        self.comparison.plan.run_plain(&mut state, 0, u16::MAX);
        let mut inputs = Vec::new();
        for _ in 0..6 {
            inputs.push(lanes::inputs(module, &mut self.comparison.random));
        }
        let rows = rows_of_16(&inputs);
        let mut lane = Planes::of(&lanes::anything(&mut self.comparison.random));
        let first = load(&state).expect("a saved state");
        for register in 0..usize::from(module.registers) {
            let value = first.values[usize::from(module.inputs) + register];
            (lane.value[register], lane.unknown[register]) = (value.number, value.unknown);
        }
        lane.places = first.places;
        let mut traces = [vec![0; 12 * TRACE_ROW], vec![0; 12 * TRACE_ROW]];
        let [events, expressions] = &mut traces;
        let run = self.comparison.plan.trace(&mut state, 0, &rows, events);
        same("trace", run, (12, false, 0))?;
        same(
            "clock_trace",
            self.comparison.clock.trace(&mut lane, &rows, expressions),
            (6, 0),
        )?;
        let variables = module.widths.len();
        for (p, (by_events, by_expressions)) in
            events.chunks(TRACE_ROW).zip(expressions.chunks(TRACE_ROW)).enumerate()
        {
            let name = format!("row {p} of both traces");
            same(&name, &by_events[..variables], &by_expressions[..variables])?;
            let threads = VALUES..VALUES + module.threads.len();
            same(&name, &by_events[threads.clone()], &by_expressions[threads])?;
        }
        Ok(())
    }
}

fn value(word: u64) -> Value {
    Value { number: word as u32, unknown: (word >> 32) as u32 }
}
