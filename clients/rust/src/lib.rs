//! A client of the planner as a co-process, `aliasplan plan --each --tables FILE`.
//!
//! Addresses are bytes without angle brackets, the null sender is empty. Parameters of MAIL and RCPT (`SIZE=1000`) are no part of an address.
use std::ffi::{OsStr, OsString};
use std::fmt;
use std::io::{self, BufRead, BufReader, Write};
use std::process::{Child, ChildStdin, ChildStdout, Command, Stdio};
use std::thread;

/// The sender and the recipients of a message.
#[derive(Clone, Debug, Default, PartialEq, Eq)]
pub struct Envelope {
    pub sender: Vec<u8>,
    pub recipients: Vec<Vec<u8>>,
}

/// One mail transaction to make; the hosts stand in the order in which they are tried.
#[derive(Clone, Debug, Default, PartialEq, Eq)]
pub struct Transaction {
    pub sender: Vec<u8>,
    pub transport: Vec<u8>,
    pub nexthop: Vec<u8>,
    pub hosts: Vec<Vec<u8>>,
    pub recipients: Vec<Vec<u8>>,
}

/// What to do with a message, and what is wrong with its addresses and lists: the words behind `finding `.
#[derive(Clone, Debug, Default, PartialEq, Eq)]
pub struct Plan {
    pub transactions: Vec<Transaction>,
    pub findings: Vec<Vec<u8>>,
}

/// What an envelope gets.
#[derive(Clone, Debug, PartialEq, Eq)]
pub enum Answer {
    Plan(Plan),
    /// Why there is no plan: the words behind `refused `.
    Refusal(Vec<u8>),
}

/// The answer to a change of tables.
#[derive(Clone, Debug, PartialEq, Eq)]
pub enum Tables {
    /// Those that were read anew hold from now on: the SHA-256 of their file, in hexadecimal digits.
    Changed(Vec<u8>),
    /// They stay as they were, for this reason.
    Refused(Vec<u8>),
}

#[derive(Debug)]
pub enum Error {
    /// An address has CR or LF, and nothing was sent.
    Address,
    /// The planner ended, or wrote what is no answer, at its start or twice without an answer in between.
    Ended,
    /// The planner can't be started.
    System(io::Error),
}

impl fmt::Display for Error {
    fn fmt(&self, form: &mut fmt::Formatter<'_>) -> fmt::Result {
        match self {
            Error::Address => form.write_str("an address has CR or LF"),
            Error::Ended => form.write_str("the planner ended without an answer"),
            Error::System(error) => write!(form, "the planner can't be started: {error}"),
        }
    }
}

impl std::error::Error for Error {}

/// A planner that is kept. Dropped, it ends.
pub struct Planner {
    words: Vec<OsString>,
    running: Option<Running>,
    number: u64,
}

impl Planner {
    /// Starts a planner. The options are further words of its command line, none that changes the form of the answers. What the planner says
    /// on standard error goes where that of this process goes.
    pub fn start(
        program: impl AsRef<OsStr>,
        tables: impl AsRef<OsStr>,
        options: &[&str],
    ) -> Result<Planner, Error> {
        let front = [
            program.as_ref(),
            "plan".as_ref(),
            "--each".as_ref(),
            "--tables".as_ref(),
            tables.as_ref(),
        ];
        let words = front
            .into_iter()
            .chain(options.iter().map(OsStr::new))
            .map(OsString::from)
            .collect();
        let mut planner = Planner {
            words,
            running: None,
            number: 0,
        };
        planner.running = Some(Running::start(&planner.words)?);
        Ok(planner)
    }

    /// The answer to one envelope. A planner that dies is started again and asked anew.
    pub fn ask(&mut self, envelope: &Envelope) -> Result<Answer, Error> {
        let mut answers = self.ask_many(std::slice::from_ref(envelope))?;
        answers.pop().ok_or(Error::Ended)
    }

    /// The answers to envelopes, in their order; none waits for the answer to the one before.
    pub fn ask_many(&mut self, envelopes: &[Envelope]) -> Result<Vec<Answer>, Error> {
        let first = self.number + 1;
        self.number += envelopes.len() as u64;
        let texts: Vec<_> = envelopes
            .iter()
            .zip(first..)
            .map(|(envelope, number)| text_of(envelope, number))
            .collect::<Result<_, _>>()?;
        self.exchange(&texts, |output, at| block(output, first + at as u64))
    }

    /// Has the file of tables read anew.
    pub fn change_tables(&mut self) -> Result<Tables, Error> {
        let mut answers = self.exchange(&[b"%tables\n".to_vec()], |output, _| tables(output))?;
        answers.pop().ok_or(Error::Ended)
    }

    /// Ends the planner. A later question starts one again.
    pub fn end(&mut self) {
        if let Some(running) = self.running.take() {
            running.end();
        }
    }

    /// Sends texts and reads their answers. Where the planner dies, a new one is asked what isn't answered.
    fn exchange<A>(
        &mut self,
        texts: &[Vec<u8>],
        read: impl Fn(&mut Output, usize) -> Result<A, Error>,
    ) -> Result<Vec<A>, Error> {
        let mut answers = Vec::with_capacity(texts.len());
        let mut has_died = false;
        while answers.len() < texts.len() {
            let before = answers.len();
            match self.attempt(texts, &read, &mut answers) {
                Err(Error::Ended) if answers.len() > before || !has_died => has_died = true,
                ended => ended?,
            }
        }
        Ok(answers)
    }

    /// Sends the texts that aren't answered, and reads answers until one fails; then the planner ends.
    fn attempt<A>(
        &mut self,
        texts: &[Vec<u8>],
        read: impl Fn(&mut Output, usize) -> Result<A, Error>,
        answers: &mut Vec<A>,
    ) -> Result<(), Error> {
        let mut running = match self.running.take() {
            Some(running) => running,
            None => Running::start(&self.words)?,
        };
        let Running {
            process,
            input,
            output,
        } = &mut running;
        let unanswered = texts[answers.len()..].concat();
        let mut receive = || {
            for at in answers.len()..texts.len() {
                answers.push(read(output, at)?);
            }
            Ok(())
        };
        // That the planner has ended shows where it is read.
        if unanswered.len() <= PIPE_ROOM {
            let _ = input.write_all(&unanswered);
            receive()?;
        } else {
            // Answers are read while texts are sent, so that neither waits for the other.
            thread::scope(|scope| {
                scope.spawn(|| input.write_all(&unanswered));
                let received = receive();
                if received.is_err() {
                    let _ = process.0.kill();
                }
                received
            })?;
        }
        self.running = Some(running);
        Ok(())
    }
}

type Output = BufReader<ChildStdout>;

/// What an empty pipe takes at least.
const PIPE_ROOM: usize = 4096;

/// A process that is killed where it is dropped.
struct Process(Child);

impl Drop for Process {
    fn drop(&mut self) {
        let _ = self.0.kill();
        let _ = self.0.wait();
    }
}

struct Running {
    process: Process,
    input: ChildStdin,
    output: Output,
}

impl Running {
    /// Starts a planner, and reads what it says of the tables.
    fn start(words: &[OsString]) -> Result<Running, Error> {
        let mut command = Command::new(&words[0]);
        let mut child = command
            .args(&words[1..])
            .stdin(Stdio::piped())
            .stdout(Stdio::piped())
            .spawn()
            .map_err(Error::System)?;
        let (input, output) = (child.stdin.take(), child.stdout.take());
        let process = Process(child);
        let (Some(input), Some(output)) = (input, output) else {
            return Err(Error::Ended);
        };
        let mut output = BufReader::with_capacity(1 << 16, output);
        let words = behind(&mut output, b"tables ")?;
        let count = std::str::from_utf8(&words)
            .ok()
            .and_then(|it| it.split(' ').next()?.parse().ok())
            .ok_or(Error::Ended)?;
        for _ in 0..count {
            behind(&mut output, b"finding ")?;
        }
        Ok(Running {
            process,
            input,
            output,
        })
    }

    /// Waits until the planner has ended.
    fn end(self) {
        let Running {
            mut process,
            input,
            mut output,
        } = self;
        drop(input);
        let _ = io::copy(&mut output, &mut io::sink());
        let _ = process.0.wait();
    }
}

fn text_of(envelope: &Envelope, number: u64) -> Result<Vec<u8>, Error> {
    let mut text = format!("%envelope {number}\n").into_bytes();
    let sender = [(&b"MAIL FROM:<"[..], &envelope.sender)];
    for (front, address) in sender
        .into_iter()
        .chain(envelope.recipients.iter().map(|it| (&b"RCPT TO:<"[..], it)))
    {
        if address.iter().any(|byte| matches!(byte, b'\r' | b'\n')) {
            return Err(Error::Address);
        }
        text.extend_from_slice(front);
        text.extend_from_slice(address);
        text.extend_from_slice(b">\n");
    }
    text.extend_from_slice(b"%end\n");
    Ok(text)
}

/// The next line without its end.
fn line(output: &mut Output) -> Result<Vec<u8>, Error> {
    let mut line = Vec::new();
    match output.read_until(b'\n', &mut line) {
        Ok(_) if line.pop() == Some(b'\n') => Ok(line),
        _ => Err(Error::Ended),
    }
}

/// What stands behind this word on the next line.
fn behind(output: &mut Output, word: &[u8]) -> Result<Vec<u8>, Error> {
    line(output)?
        .strip_prefix(word)
        .map(<[u8]>::to_vec)
        .ok_or(Error::Ended)
}

fn without_brackets(path: &[u8]) -> Vec<u8> {
    path.strip_prefix(b"<")
        .and_then(|it| it.strip_suffix(b">"))
        .unwrap_or(path)
        .to_vec()
}

/// Reads the block of an envelope.
fn block(output: &mut Output, number: u64) -> Result<Answer, Error> {
    if behind(output, b"envelope ")? != number.to_string().into_bytes() {
        return Err(Error::Ended);
    }
    if let Some(reason) = line(output)?.strip_prefix(b"refused ") {
        return Ok(Answer::Refusal(reason.to_vec()));
    }
    let mut plan = Plan::default();
    loop {
        let line = line(output)?;
        if line == b"end" {
            return Ok(Answer::Plan(plan));
        }
        if let Some(words) = line.strip_prefix(b"finding ") {
            plan.findings.push(words.to_vec());
        } else if line.starts_with(b"transaction ") {
            plan.transactions.push(head(output)?);
        } else {
            let last = plan.transactions.last_mut().ok_or(Error::Ended)?;
            if let Some(path) = line.strip_prefix(b"to ") {
                last.recipients.push(without_brackets(path));
            } else {
                last.hosts
                    .push(line.strip_prefix(b"host ").ok_or(Error::Ended)?.to_vec());
            }
        }
    }
}

/// Reads the lines `from` and `via` of a transaction.
fn head(output: &mut Output) -> Result<Transaction, Error> {
    let sender = without_brackets(&behind(output, b"from ")?);
    let via = behind(output, b"via ")?;
    let space = via
        .iter()
        .position(|byte| *byte == b' ')
        .ok_or(Error::Ended)?;
    Ok(Transaction {
        sender,
        transport: via[..space].to_vec(),
        nexthop: via[space + 1..].to_vec(),
        ..Transaction::default()
    })
}

fn tables(output: &mut Output) -> Result<Tables, Error> {
    let words = behind(output, b"tables ")?;
    match words.strip_prefix(b"ok ") {
        Some(sum) => Ok(Tables::Changed(sum.to_vec())),
        None => words
            .strip_prefix(b"refused ")
            .map(|reason| Tables::Refused(reason.to_vec()))
            .ok_or(Error::Ended),
    }
}
