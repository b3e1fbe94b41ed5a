//! Calls of the library, each compared with the second reader.

use std::fmt::{Debug, LowerHex};
use std::io::{stdout, Write};

use super::fenced::Fenced;
use super::ground::{Ground, EDGES};
use super::lent::{Filled, Lent, FILLINGS};
use super::random::{seed, Random};
use crate::raw::Answer;
use crate::reader::Outcome;

/// The calls of one test.
pub struct Calls {
    subject: String,
    seed: u64,
    made: usize,
    /// Memory for places at its edges; without any, all places lie between guards.
    fences: Vec<Fenced>,
    pub random: Random,
}

impl Calls {
    pub fn new(subject: String) -> Calls {
        Calls::seeded(subject, seed(), vec![])
    }

    /// Calls some of whose places end or begin where memory does: no call has more than three.
    pub fn with_fences(subject: String, seed: u64) -> Calls {
        let fences = [(); 3].map(|()| Fenced::new());
        Calls::seeded(subject, seed, fences.into())
    }

    fn seeded(subject: String, seed: u64, fences: Vec<Fenced>) -> Calls {
        Calls {
            random: Random::seeded(&subject, seed),
            subject,
            seed,
            made: 0,
            fences,
        }
    }

    /// As `check_inputs`, of a call that is lent one place for reading.
    pub fn check<I: Filled, O: Filled + LowerHex>(
        &mut self,
        input: &[I],
        output: &[O],
        want: Outcome<O>,
        call: impl FnOnce(&Lent<I>, &mut Lent<O>) -> Answer,
        described: impl FnOnce() -> String,
    ) -> Outcome<O> {
        let call = |places: &[Lent<I>], output: &mut Lent<O>| call(&places[0], output);
        self.check_inputs(&[input], output, want, call, described)
    }

    /// Makes one call on places that hold `inputs` and `output`, and panics unless it answers `want`,
    /// leaves what `want` says, and changes neither an input nor a guard. Gives what it left.
    pub fn check_inputs<I: Filled, O: Filled + LowerHex>(
        &mut self,
        inputs: &[&[I]],
        output: &[O],
        want: Outcome<O>,
        call: impl FnOnce(&[Lent<I>], &mut Lent<O>) -> Answer,
        described: impl FnOnce() -> String,
    ) -> Outcome<O> {
        let Err(fault) = self.fault_of(inputs, output, &want, call) else {
            return want;
        };
        let held = clipped(&want.held);
        let rules = format!("({}, {}), leaving {held}", want.code, want.number);
        self.report(&fault, &rules, described())
    }

    /// Makes one call, and tells where it is not as `want` says.
    fn fault_of<I: Filled, O: Filled + LowerHex>(
        &mut self,
        inputs: &[&[I]],
        output: &[O],
        want: &Outcome<O>,
        call: impl FnOnce(&[Lent<I>], &mut Lent<O>) -> Answer,
    ) -> Result<(), String> {
        let mut ground = self.next_ground();
        let places = inputs.iter().map(|input| ground.lend(input));
        let places: Vec<Lent<I>> = places.collect();
        let mut output_place = ground.lend(output);
        let Answer { code, number } = call(&places, &mut output_place);

        let mut lent = places.iter().zip(inputs);
        if (code, number) != (want.code, want.number) {
            Err(format!("answered ({code}, {number})"))
        } else if lent.any(|(place, input)| place.held() != *input) {
            Err("changed its input".to_string())
        } else if !places.iter().all(Lent::guards_kept) || !output_place.guards_kept() {
            Err("wrote outside the place lent".to_string())
        } else if let Some(i) = first_difference(output_place.held(), &want.held) {
            Err(format!("left {:x} in place {i}", output_place.held()[i]))
        } else {
            Ok(())
        }
    }

    /// Makes one call that is lent nothing to write, on a place that holds `input`, and panics unless it answers
    /// `want` and changes neither its input nor a guard.
    pub fn check_reading<I: Filled, A: Debug + PartialEq>(
        &mut self,
        input: &[I],
        want: A,
        call: impl FnOnce(&Lent<I>) -> A,
        described: impl FnOnce() -> String,
    ) -> A {
        let place = self.next_ground().lend(input);
        let answer = call(&place);
        if answer == want && place.held() == input && place.guards_kept() {
            return answer;
        }
        drop(place);
        let fault = format!("answered {answer:?}");
        self.report(&fault, &format!("{want:?}"), described())
    }

    /// Where the places of the next call lie.
    fn next_ground(&mut self) -> Ground<'_> {
        let guard = FILLINGS[self.made % FILLINGS.len()];
        let shift = self.made / FILLINGS.len() % 8;
        self.made += 1;
        let edge = match self.fences.is_empty() {
            true => None,
            false => self.random.pick(&EDGES),
        };
        Ground {
            guard,
            shift,
            edge,
            fences: self.fences.iter_mut(),
        }
    }

    /// Ends the test with all that is needed to make the failing call again.
    fn report(&self, fault: &str, rules: &str, described: String) -> ! {
        panic!(
            "{}: call {} with CAHERMISK_SEED={:#x} {fault}\n  {described}\n  the rules: {rules}",
            self.subject, self.made, self.seed,
        )
    }

    /// Says how many calls agreed.
    pub fn finish(self) {
        say(&format!(
            "{}: {} calls answered as the second reader does (CAHERMISK_SEED={:#x})",
            self.subject, self.made, self.seed
        ));
    }
}

/// Writes a line past the test runner's capture.
pub fn say(line: &str) {
    let line = format!("{line}\n");
    stdout().write_all(line.as_bytes()).expect("stdout is open");
}

fn first_difference<T: PartialEq>(held: &[T], want: &[T]) -> Option<usize> {
    held.iter().zip(want).position(|(h, w)| h != w)
}

/// A list in hexadecimal, its front alone where it is long: the seed makes all of it again.
pub fn clipped<T: LowerHex>(list: &[T]) -> String {
    const SHOWN: usize = 96;
    let shown: Vec<String> = list
        .iter()
        .take(SHOWN)
        .map(|x| format!("{x:02x}"))
        .collect();
    let more = if list.len() > SHOWN { " .." } else { "" };
    format!("[{}{more}] ({})", shown.join(" "), list.len())
}
