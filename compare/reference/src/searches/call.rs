//! A call of `crafty_search`, in the bytes that bindings/host.c reads.

use super::logarithms::{own, Logarithms};
use super::options::Options;
use super::rust::Run;
use crate::random::Random;
use crate::states::fields::{context_numbers, ContextNumbers};
use crate::trees::{any_record, Record};
use std::sync::LazyLock;

/// Its place among the functions of bindings/calls.h.
const FUNCTION: u64 = 11;
/// What the records hold before a call, over and over.
static SPARE: LazyLock<Vec<Record>> = LazyLock::new(|| {
    let random = &mut Random::numbered(0, 0);
    (0..1_009).map(|_| any_record(random)).collect()
});

/// What is asked; of the records and the room how many there are.
#[derive(Clone)]
pub struct Call {
    pub context: ContextNumbers,
    pub options: Options,
    pub logarithms: Logarithms,
    pub draws: Vec<u8>,
    pub records: usize,
    pub room: usize,
}

impl Call {
    /// What the Rust did, with as much of all as it takes.
    pub fn of(run: &Run) -> Call {
        Call {
            context: context_numbers(&run.context),
            options: run.options,
            logarithms: own(),
            draws: run.grown.draws.iter().map(|draw| draw.number as u8).collect(),
            records: run.grown.records.len(),
            room: run.grown.actions.len(),
        }
    }

    /// The room before the call: no two neighbours are the same, so that a shifted copy is seen too.
    pub fn lent_room(&self) -> Vec<u8> {
        (0..self.room).map(|place| 0xA5 ^ (place % 251) as u8).collect()
    }

    /// A record before the call.
    pub fn lent_record(number: usize) -> Record {
        SPARE[number % SPARE.len()]
    }

    pub fn request(&self) -> Vec<u8> {
        let records: Vec<u8> =
            (0..self.records).flat_map(|number| Call::lent_record(number).bytes()).collect();
        let logarithms = self.logarithms.iter().flat_map(|number| number.to_bits().to_le_bytes());
        let logarithms: Vec<u8> = logarithms.collect();
        let Options { iterations, threshold, weighting, exploration } = self.options;
        let mut head = vec![FUNCTION, 0];
        head.extend(self.context.map(u64::from));
        head.extend([records.len() as u64, self.room as u64, u64::from(iterations)]);
        head.extend([threshold, weighting, exploration].map(|float| u64::from(float.to_bits())));
        head.extend([logarithms.len() as u64, self.draws.len() as u64]);
        let mut bytes: Vec<u8> = head.into_iter().flat_map(u64::to_le_bytes).collect();
        bytes.extend(records);
        bytes.extend(logarithms);
        bytes.extend(&self.draws);
        bytes.extend(self.lent_room());
        bytes
    }
}
