//! Asks a process of ours, and holds each answer to what it must be.

use crate::fail;
use std::io::{self, BufRead, BufReader, Write};
use std::process::{Child, ChildStdin, ChildStdout, Command, Stdio};
use std::sync::mpsc::{sync_channel, SyncSender};
use std::thread;

/// So many are asked at a time, and so many times before the first answers are read.
const BATCH: usize = 64;
const UNDER_WAY: usize = 4;

pub trait Question: Send + 'static {
    fn request(&self) -> Vec<u8>;

    /// Reads what is answered, and says how it differs from what must be.
    fn difference(&self, answers: &mut impl BufRead) -> io::Result<Option<String>>;
}

pub struct Process {
    child: Child,
    pub stdin: ChildStdin,
    pub stdout: BufReader<ChildStdout>,
}

pub fn start(command: &[&str]) -> io::Result<Process> {
    let mut started = Command::new(command[0]);
    started.args(&command[1..]).stdin(Stdio::piped()).stdout(Stdio::piped());
    let mut child = started.spawn()?;
    let stdin = child.stdin.take().expect("a pipe");
    let stdout = BufReader::new(child.stdout.take().expect("a pipe"));
    Ok(Process { child, stdin, stdout })
}

/// One thread works out what must be answered and asks; this one reads what is. Answers how many were asked.
pub fn ask<Q: Question>(
    command: &[&str],
    questions: impl Iterator<Item = Q> + Send + 'static,
    mut meet: impl FnMut(&Q),
) -> io::Result<u64> {
    let Process { child, stdin, mut stdout } = start(command)?;
    let (sender, receiver) = sync_channel(UNDER_WAY);
    let asking = thread::spawn(move || send(questions, &sender, stdin));
    let mut asked = 0;
    for question in receiver.into_iter().flatten() {
        asked += 1;
        match question.difference(&mut stdout) {
            Ok(None) => meet(&question),
            Ok(Some(difference)) => fail(format!("question {asked} of the run: {difference}")),
            Err(error) => fail(format!("question {asked} of the run has no answer: {error}")),
        }
    }
    asking.join().expect("a thread that asks")?;
    end(child, stdout)?;
    Ok(asked)
}

impl Process {
    pub fn end(self) -> io::Result<()> {
        drop(self.stdin);
        end(self.child, self.stdout)
    }
}

fn end(mut child: Child, mut stdout: BufReader<ChildStdout>) -> io::Result<()> {
    if !stdout.fill_buf()?.is_empty() {
        fail("more was answered than asked".to_string());
    }
    let ended = child.wait()?;
    if !ended.success() {
        fail(format!("ours ended with {ended}"));
    }
    Ok(())
}

/// A batch goes to the reader before it goes to the process, whose answers would else have no one to read them.
fn send<Q: Question>(
    mut questions: impl Iterator<Item = Q>,
    sender: &SyncSender<Vec<Q>>,
    mut stdin: ChildStdin,
) -> io::Result<()> {
    loop {
        let batch: Vec<Q> = questions.by_ref().take(BATCH).collect();
        let requests: Vec<Vec<u8>> = batch.iter().map(Question::request).collect();
        if batch.is_empty() || sender.send(batch).is_err() {
            return Ok(());
        }
        stdin.write_all(&requests.concat())?;
    }
}
