//! How long the longest input takes to be read, with the way to the host's process and back.

use super::call::{Call, Function};
use super::fixed::longest;
use crate::ask::{start, Process};
use std::io;
use std::time::{Duration, Instant};

const ROUNDS: usize = 21;
const ROOM: usize = 1 << 16;

pub fn print(host: &[&str]) -> io::Result<()> {
    let mut host = start(host)?;
    let input = longest();
    for function in [Function::ReadList, Function::ReplayText] {
        let call =
            Call::new(function, if function == Function::ReadList { &input.1 } else { &input.0 });
        let time = median(&mut host, &call)?;
        let (bytes, micros) = (call.input.len(), time.as_micros());
        println!("{} of {bytes} bytes: {micros} microseconds", function.name());
    }
    host.end()
}

fn median(host: &mut Process, call: &Call) -> io::Result<Duration> {
    let mut times = Vec::new();
    for _ in 0..ROUNDS {
        let start = Instant::now();
        call.ask(host, ROOM)?;
        times.push(start.elapsed());
    }
    times.sort();
    Ok(times[ROUNDS / 2])
}
