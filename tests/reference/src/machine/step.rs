//! One choice, one instant. A refused one leaves the state as it was.

use super::{Choice, Machine, number};
use crate::module::{Expr, Function, Module, Variable};
use crate::pseudocode::Instruction;
use crate::state::{Pending, State, USERS};
use crate::value::{Scope, Value, evaluate};

impl Machine<'_> {
    /// Makes one choice of a user, or says why not: 22, 46, 33 to 35, 47.
    pub fn choose(&self, state: &mut State, user: u8, choice: u8) -> Result<(), u8> {
        let choice = self.named(choice).ok_or(number::NO_ITEM)?;
        if usize::from(user) >= USERS {
            return Err(number::NO_USER);
        }
        self.allow(state, choice)?;
        if !state.has_room(user) {
            return Err(number::USED_UP);
        }
        state.counts[usize::from(user)] += 1;
        match choice {
            Choice::Thread(thread) => self.run_thread(state, thread),
            Choice::Wire(wire) => self.run_wire(state, wire),
            Choice::Commit => self.commit(state),
        }
        Ok(())
    }

    /// Whether the simulation cycle allows the step.
    fn allow(&self, state: &State, choice: Choice) -> Result<(), u8> {
        match choice {
            Choice::Thread(thread) if self.awaited(state, thread).is_some() => {
                Err(number::NOT_ENABLED)
            }
            Choice::Wire(wire) if !state.due[wire] => Err(number::NOT_ENABLED),
            Choice::Commit if self.any_enabled(state) => Err(number::EARLY_COMMIT),
            Choice::Commit if !self.any_pending(state) => Err(number::NOTHING_PENDING),
            _ => Ok(()),
        }
    }

    /// Runs the current instruction. The thread goes on after the change, so that its
    /// assignment doesn't fire the wait that it arrives at by it.
    fn run_thread(&self, state: &mut State, thread: usize) {
        let next = usize::from(state.places[thread]) + 1;
        let place = self.run_instruction(state, self.current(state, thread), next);
        state.places[thread] = u8::try_from(place).expect("a place inside the thread");
    }

    /// The place where the thread goes on.
    fn run_instruction(
        &self,
        state: &mut State,
        instruction: Instruction,
        next: usize,
    ) -> usize {
        match instruction {
            Instruction::Wait(_) => unreachable!("an enabled thread"),
            Instruction::Set(target, value) => {
                let value = self.evaluate(state, value);
                self.change(state, &[(target, value)]);
                next
            }
            Instruction::Later(target, value) => {
                let register = usize::from(target - self.module.inputs);
                state.pending[register] = Pending::of(self.evaluate(state, value));
                next
            }
            Instruction::IfNot(condition, _) if self.evaluate(state, condition).holds() => next,
            Instruction::Go(goal) | Instruction::IfNot(_, goal) => goal,
        }
    }

    /// The mark is cleared first: a wire that reads itself may mark itself again.
    fn run_wire(&self, state: &mut State, wire: usize) {
        state.due[wire] = false;
        let value = self.evaluate(state, &self.module.wires[wire]);
        let first = self.module.inputs + self.module.registers;
        self.change(state, &[(first + wire as u8, value)]);
    }

    /// Stores all pending values as one change. The flags go down; what the slots hold
    /// stays there.
    fn commit(&self, state: &mut State) {
        let registers = (self.module.inputs..).zip(&mut state.pending);
        let stores: Vec<(Variable, Value)> = registers
            .filter_map(|(register, pending)| {
                let value = pending.value()?;
                pending.held = false;
                Some((register, value))
            })
            .collect();
        self.change(state, &stores);
    }

    /// Sets all inputs as one change and adds 1 to time, or says why not: 25, 32, 36.
    pub fn instant(&self, state: &mut State, inputs: &[Value]) -> Result<(), u8> {
        if !self.inputs_fit(inputs) {
            return Err(number::INPUTS);
        }
        if !self.quiet(state) {
            return Err(number::NOT_QUIET);
        }
        state.time = state.time.checked_add(1).ok_or(number::FULL)?;
        let stores: Vec<(Variable, Value)> = (0..).zip(inputs.iter().copied()).collect();
        self.change(state, &stores);
        Ok(())
    }

    fn evaluate(&self, state: &State, e: &Expr) -> Value {
        evaluate(e, &Present { module: self.module, state })
    }
}

/// What expressions are worked out on.
struct Present<'a> {
    module: &'a Module,
    state: &'a State,
}

impl Scope for Present<'_> {
    fn width(&self, variable: Variable) -> u8 {
        self.module.widths[usize::from(variable)]
    }

    fn value(&self, variable: Variable) -> Value {
        self.state.values[usize::from(variable)]
    }

    fn functions(&self) -> &[Function] {
        &self.module.functions
    }
}
