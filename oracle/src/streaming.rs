//! Does a program write each tick's lines before it is given the next tick, and end where it cannot
//! write them?

use crate::replay::replay_text;
use crate::trace::Trace;
use crate::yard::yard_text;
use crate::yard_trace::YardTrace;
use std::fs::File;
use std::io::{BufRead, BufReader, Read, Write};
use std::process::{Child, Command, Stdio};
use std::sync::mpsc::{channel, Receiver, RecvTimeoutError};
use std::thread;
use std::time::{Duration, Instant};

/// How long a program may take for the lines of a tick: much more than any needs.
pub const LIMIT: Duration = Duration::from_secs(20);

/// 01's sample as text, and one of a yard.
const SAMPLE: &str = include_str!("../samples/sample.txt");
const YARD: &str = include_str!("../samples/yard.txt");

/// A trace for a program, and what it has to write.
pub struct Sample {
    /// The trace's bytes up to the end of no tick, one tick, and so on up to all.
    parts: Vec<Vec<u8>>,
    /// The program's text for any bytes.
    text: fn(&[u8]) -> String,
}

impl Sample {
    /// 01's sample, for replay.
    pub fn of_replay() -> Self {
        let trace = Trace::from_text(SAMPLE).expect("the sample");
        let all = trace.ticks.len();
        let first = |ticks: usize| Trace {
            ticks: trace.ticks[..ticks].to_vec(),
            count: Some(all as u16),
            ..trace.clone()
        };
        Sample {
            parts: (0..=all).map(|ticks| first(ticks).to_bytes()).collect(),
            text: replay_text,
        }
    }

    /// The sample for yard.
    pub fn of_yard() -> Self {
        let trace = YardTrace::from_text(YARD).expect("the sample");
        let all = trace.steps.len();
        let first = |steps: usize| YardTrace {
            steps: trace.steps[..steps].to_vec(),
            count: Some(all as u16),
            ..trace.clone()
        };
        Sample { parts: (0..=all).map(|steps| first(steps).to_bytes()).collect(), text: yard_text }
    }

    /// The lines of the ticks of a part. With a byte more it is cut in a tick or overlong: what
    /// follows these lines is the refusal alone.
    fn lines(&self, part: &[u8]) -> Vec<String> {
        let text = (self.text)(&[part, &[0]].concat());
        text.lines().filter(|&line| line != "refused 5").map(String::from).collect()
    }

    /// All lines.
    fn all_lines(&self) -> Vec<String> {
        let all = self.parts.last().expect("a part");
        (self.text)(all).lines().map(String::from).collect()
    }
}

/// Gives a sample to a program tick by tick, each only after all lines of the ones before have
/// come. An error says what did not come within the limit, or came and should not.
pub fn check(program: &str, sample: &Sample, limit: Duration) -> Result<(), String> {
    try_out(program, Stdio::piped(), |child| feed(child, sample, limit))
}

/// Gives a program the first tick of a sample and no room for its lines. An error says that it did
/// not end within the limit, although there is more to read.
pub fn check_full(program: &str, sample: &Sample, limit: Duration) -> Result<(), String> {
    let full = File::options().write(true).open("/dev/full");
    let full = full.map_err(|error| format!("/dev/full: {error}"))?;
    try_out(program, full.into(), |child| {
        let mut stdin = child.stdin.take().expect("a piped standard input");
        stdin.write_all(&sample.parts[1]).map_err(|error| error.to_string())?;
        let end = Instant::now() + limit;
        while Instant::now() < end {
            if child.try_wait().map_err(|error| error.to_string())?.is_some() {
                return Ok(());
            }
            thread::sleep(Duration::from_millis(1));
        }
        Err("it goes on where it cannot write".into())
    })
}

/// Starts a program and does something with it, and ends it if it has not ended by itself.
fn try_out(
    program: &str,
    stdout: Stdio,
    test: impl FnOnce(&mut Child) -> Result<(), String>,
) -> Result<(), String> {
    let mut command = Command::new(program);
    command.stdin(Stdio::piped()).stdout(stdout).stderr(Stdio::null());
    let mut child = command.spawn().map_err(|error| format!("{program}: {error}"))?;
    let result = test(&mut child);
    let _ = child.kill();
    let _ = child.wait();
    result.map_err(|error| format!("{program}: {error}"))
}

fn feed(child: &mut Child, sample: &Sample, limit: Duration) -> Result<(), String> {
    let mut stdin = child.stdin.take().expect("a piped standard input");
    let lines = lines_of(child.stdout.take().expect("a piped standard output"));
    let (mut given, mut seen) = (0, 0);
    for (tick, part) in sample.parts.iter().enumerate() {
        let name = format!("tick {tick}");
        stdin.write_all(&part[given..]).map_err(|error| format!("{name}: {error}"))?;
        given = part.len();
        let due = sample.lines(part);
        await_lines(&lines, &name, &due[seen..], limit)?;
        seen = due.len();
    }
    drop(stdin);
    await_lines(&lines, "the end", &sample.all_lines()[seen..], limit)?;
    match lines.recv_timeout(limit) {
        Err(RecvTimeoutError::Disconnected) => Ok(()),
        Err(RecvTimeoutError::Timeout) => Err("it does not end".into()),
        Ok(came) => Err(format!("`{came}` at the end")),
    }
}

/// Waits for these lines, which come after what is named.
fn await_lines(
    lines: &Receiver<String>,
    after: &str,
    due: &[String],
    limit: Duration,
) -> Result<(), String> {
    for line in due {
        match lines.recv_timeout(limit) {
            Ok(came) if came == *line => {}
            Ok(came) => return Err(format!("{after}: `{came}`, not `{line}`")),
            Err(_) => return Err(format!("{after}: `{line}` did not come in time")),
        }
    }
    Ok(())
}

/// The lines of some output, as they come.
fn lines_of(output: impl Read + Send + 'static) -> Receiver<String> {
    let (sender, receiver) = channel();
    thread::spawn(move || {
        let lines = BufReader::new(output).lines().map_while(Result::ok);
        // Nobody listens any more after an error.
        lines.take_while(|line| sender.send(line.clone()).is_ok()).for_each(drop);
    });
    receiver
}
