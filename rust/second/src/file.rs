//! The file: a header record, accepting and transition records in any order, an end record.

use crate::automaton::Automaton;
use crate::refusal::Refusal;

pub(crate) const HEADER: [u8; 2] = [0x41, 0x48];
pub(crate) const ACCEPTING: [u8; 2] = [0x41, 0x46];
pub(crate) const TRANSITION: [u8; 2] = [0x41, 0x54];
pub(crate) const END: [u8; 2] = [0x41, 0x45];

/// The automaton that the file holds, or the refusal (1 to 5) of the first fault.
pub fn read(file: &[u8]) -> Result<Automaton, Refusal> {
    let mut reader = Reader { rest: file };
    let mut automaton = reader.header()?;
    loop {
        match reader.take()? {
            ACCEPTING => reader.accepting(&mut automaton)?,
            TRANSITION => reader.transition(&mut automaton)?,
            END if reader.rest.is_empty() => return Ok(automaton),
            _ => return Err(Refusal::Mark),
        }
    }
}

/// The part of the file that is not read yet.
struct Reader<'a> {
    rest: &'a [u8],
}

impl Reader<'_> {
    /// The next `N` bytes of a record: its mark, or all its fields.
    fn take<const N: usize>(&mut self) -> Result<[u8; N], Refusal> {
        let (bytes, rest) = self.rest.split_first_chunk().ok_or(Refusal::FileEnds)?;
        self.rest = rest;
        Ok(*bytes)
    }

    fn header(&mut self) -> Result<Automaton, Refusal> {
        if self.take()? != HEADER {
            return Err(Refusal::Mark);
        }
        let [states, letters, initial] = self.take()?;
        Automaton::new(states, letters, initial).ok_or(Refusal::Header)
    }

    fn accepting(&mut self, automaton: &mut Automaton) -> Result<(), Refusal> {
        let [state] = self.take()?;
        if !automaton.has_state(state) {
            return Err(Refusal::Outside);
        }
        if !automaton.add_accepting(state) {
            return Err(Refusal::Repeated);
        }
        Ok(())
    }

    fn transition(&mut self, automaton: &mut Automaton) -> Result<(), Refusal> {
        let [from, letter, to] = self.take()?;
        if !(automaton.has_state(from) && automaton.has_letter(letter) && automaton.has_state(to)) {
            return Err(Refusal::Outside);
        }
        if !automaton.add_transition(from, letter, to) {
            return Err(Refusal::Repeated);
        }
        Ok(())
    }
}
