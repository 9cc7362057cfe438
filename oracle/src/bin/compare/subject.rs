//! The programs that are compared.

use oracle::abi;
use oracle::generate::{ChargeCase, TickCase, TotalCase, WordsCase, WriteCase, WriteInCase};
use oracle::generate::{CompareCase, FreshCase, FreshLastCase, ListenCase, PollCase, ReadCase};
use oracle::generate::FiguresCase;
use oracle::generate::{LongCase, LongFreshCase, LongReadCase, LongWriteCase};
use oracle::{fault, long, replay, yard, Both, Frame, Settings};

/// Something that makes the calls and plays traces. Answers are packed as the library's.
pub trait Subject {
    fn fresh(&mut self, case: &mut FreshCase) -> u64;
    fn fresh_last(&mut self, case: &mut FreshLastCase) -> u64;
    fn tick(&mut self, case: &mut TickCase) -> u64;
    fn read(&mut self, case: &mut ReadCase) -> u64;
    fn write(&mut self, case: &mut WriteCase) -> u64;
    fn words(&mut self, case: &mut WordsCase) -> u64;
    fn compare(&mut self, case: &mut CompareCase) -> u64;
    fn poll(&mut self, case: &mut PollCase) -> u64;
    fn listen(&mut self, case: &mut ListenCase) -> u64;
    fn charge(&mut self, case: &mut ChargeCase) -> u64;
    fn total(&mut self, case: &mut TotalCase) -> u64;
    fn figures(&mut self, case: &mut FiguresCase) -> u64;
    fn long_fresh(&mut self, case: &mut LongFreshCase) -> u64;
    fn long_tick(&mut self, case: &mut LongCase) -> u64;
    fn long_read(&mut self, case: &mut LongReadCase) -> u64;
    fn long_write(&mut self, case: &mut LongWriteCase) -> u64;
    fn fresh_in(&mut self, case: &mut FreshCase<Both>) -> u64;
    fn tick_in(&mut self, case: &mut TickCase<Both>) -> u64;
    fn read_in(&mut self, case: &mut ReadCase<Both>) -> u64;
    fn write_in(&mut self, case: &mut WriteInCase) -> u64;
    fn words_in(&mut self, case: &mut WordsCase<Both>) -> u64;
    fn compare_in(&mut self, case: &mut CompareCase<Both>) -> u64;
    fn poll_in(&mut self, case: &mut PollCase<Both>) -> u64;
    fn listen_in(&mut self, case: &mut ListenCase<Both>) -> u64;
    fn replay(&mut self, trace: &[u8]) -> Result<String, String>;
    fn yard(&mut self, trace: &[u8]) -> Result<String, String>;
}

/// The oracle, with a planted fault if the number is not 0.
pub struct Oracle {
    pub fault: u8,
}

impl Oracle {
    /// Runs something with the fault planted, which is taken out again afterwards.
    fn faulty<T>(&self, run: impl FnOnce() -> T) -> T {
        fault::plant(self.fault);
        let result = run();
        fault::plant(0);
        result
    }

    /// The start, of any setup.
    fn fresh_by<S: Settings>(&self, case: &mut FreshCase<S>) -> u64 {
        started(self.faulty(|| oracle::start(&case.setup, case.clock)), &mut case.state)
    }

    /// The words, of any setup.
    fn words_by<S: Settings>(&self, case: &mut WordsCase<S>) -> u64 {
        let WordsCase { setup, batch, verdicts, text } = case;
        match self.faulty(|| oracle::words(setup, batch, verdicts, text)) {
            Ok(length) => abi::pack_words(length as u64),
            Err(number) => abi::pack_refusal(number),
        }
    }

    /// The comparison, of any setup.
    fn compare_by<S: Settings>(&self, case: &CompareCase<S>) -> u64 {
        let CompareCase { setup, clock, first, second } = case;
        match self.faulty(|| oracle::compare(setup, *clock, first, second)) {
            Ok((order, reason)) => abi::pack_compare(order, reason),
            Err(number) => abi::pack_refusal(number),
        }
    }
}

impl Subject for Oracle {
    fn fresh(&mut self, case: &mut FreshCase) -> u64 {
        self.fresh_by(case)
    }

    fn fresh_last(&mut self, case: &mut FreshLastCase) -> u64 {
        started(self.faulty(|| oracle::start_last(&case.setup, case.clock)), &mut case.last)
    }

    fn tick(&mut self, case: &mut TickCase) -> u64 {
        abi::pack_tick(&self.faulty(|| case.run()))
    }

    fn read(&mut self, case: &mut ReadCase) -> u64 {
        match self.faulty(|| oracle::read(&case.setup, &case.frame)) {
            Ok(frame) => {
                case.state = frame.timestamp.to_state();
                pack_frame(&frame)
            }
            Err(number) => abi::pack_refusal(number),
        }
    }

    fn write(&mut self, case: &mut WriteCase) -> u64 {
        let WriteCase { setup, node, state, payload, out } = case;
        match self.faulty(|| oracle::write(setup, *node, state, payload, out)) {
            Ok(length) => abi::pack_write(length as u64),
            Err(number) => abi::pack_refusal(number),
        }
    }

    fn words(&mut self, case: &mut WordsCase) -> u64 {
        self.words_by(case)
    }

    fn compare(&mut self, case: &mut CompareCase) -> u64 {
        self.compare_by(case)
    }

    fn poll(&mut self, case: &mut PollCase) -> u64 {
        abi::pack_poll(self.faulty(|| case.run()))
    }

    fn listen(&mut self, case: &mut ListenCase) -> u64 {
        abi::pack_tick(&self.faulty(|| case.run()))
    }

    fn charge(&mut self, case: &mut ChargeCase) -> u64 {
        abi::pack_charge(self.faulty(|| case.run()))
    }

    fn total(&mut self, case: &mut TotalCase) -> u64 {
        abi::pack_total(self.faulty(|| case.run()))
    }

    fn figures(&mut self, case: &mut FiguresCase) -> u64 {
        let FiguresCase { n, batch, verdicts, figures } = case;
        match self.faulty(|| oracle::figures(*n, batch, verdicts, figures)) {
            Ok(()) => 0,
            Err(number) => abi::pack_refusal(number),
        }
    }

    fn long_fresh(&mut self, case: &mut LongFreshCase) -> u64 {
        started(self.faulty(|| oracle::long_start(&case.setup, case.clock)), &mut case.state)
    }

    fn long_tick(&mut self, case: &mut LongCase) -> u64 {
        abi::pack_tick(&self.faulty(|| case.run()))
    }

    fn long_read(&mut self, case: &mut LongReadCase) -> u64 {
        match self.faulty(|| oracle::long_read(&case.setup, &case.frame)) {
            Ok(frame) => {
                case.state = long::to_state(&frame.timestamp);
                pack_frame(&frame)
            }
            Err(number) => abi::pack_refusal(number),
        }
    }

    fn long_write(&mut self, case: &mut LongWriteCase) -> u64 {
        let LongWriteCase { setup, node, state, payload, out } = case;
        match self.faulty(|| oracle::long_write(setup, *node, state, payload, out)) {
            Ok(length) => abi::pack_write(length as u64),
            Err(number) => abi::pack_refusal(number),
        }
    }

    fn fresh_in(&mut self, case: &mut FreshCase<Both>) -> u64 {
        self.fresh_by(case)
    }

    fn tick_in(&mut self, case: &mut TickCase<Both>) -> u64 {
        abi::pack_tick(&self.faulty(|| case.run()))
    }

    fn read_in(&mut self, case: &mut ReadCase<Both>) -> u64 {
        let read = self.faulty(|| {
            let frame = oracle::read(&case.setup, &case.frame)?;
            let state = oracle::read_state(&case.setup, &frame);
            Ok((frame, state, case.setup.is_wide(frame.timestamp.kn.len())))
        });
        match read {
            Ok((frame, state, is_wide)) => {
                case.state = state;
                pack_frame(&frame) | abi::pack_wide(is_wide)
            }
            Err(number) => abi::pack_refusal(number),
        }
    }

    fn write_in(&mut self, case: &mut WriteInCase) -> u64 {
        let WriteInCase { setup, wide, node, state, payload, out } = case;
        match self.faulty(|| oracle::write_in(setup, *node, *wide, state, payload, out)) {
            Ok(length) => abi::pack_write(length as u64),
            Err(number) => abi::pack_refusal(number),
        }
    }

    fn words_in(&mut self, case: &mut WordsCase<Both>) -> u64 {
        self.words_by(case)
    }

    fn compare_in(&mut self, case: &mut CompareCase<Both>) -> u64 {
        self.compare_by(case)
    }

    fn poll_in(&mut self, case: &mut PollCase<Both>) -> u64 {
        abi::pack_poll(self.faulty(|| case.run()))
    }

    fn listen_in(&mut self, case: &mut ListenCase<Both>) -> u64 {
        abi::pack_tick(&self.faulty(|| case.run()))
    }

    fn replay(&mut self, trace: &[u8]) -> Result<String, String> {
        Ok(self.faulty(|| replay::replay_text(trace)))
    }

    fn yard(&mut self, trace: &[u8]) -> Result<String, String> {
        Ok(self.faulty(|| yard::yard_text(trace)))
    }
}

/// A start's answer; where it is accepted, what is made of it is kept.
fn started<T>(made: Result<T, u8>, kept: &mut T) -> u64 {
    match made {
        Ok(made) => *kept = made,
        Err(number) => return abi::pack_refusal(number),
    }
    0
}

/// A reader's answer.
fn pack_frame(frame: &Frame) -> u64 {
    let payload_at = frame.bytes.len() - frame.payload.len();
    abi::pack_read(frame.node as u64, payload_at as u64, frame.payload.len() as u64)
}

/// The proved library and the proved programs.
#[cfg(feature = "abi")]
pub struct Proved {
    pub replay: String,
    pub yard: String,
}

#[cfg(feature = "abi")]
impl Subject for Proved {
    fn fresh(&mut self, case: &mut FreshCase) -> u64 {
        abi::library::fresh(case)
    }

    fn fresh_last(&mut self, case: &mut FreshLastCase) -> u64 {
        abi::library::fresh_last(case)
    }

    fn tick(&mut self, case: &mut TickCase) -> u64 {
        abi::library::tick(case)
    }

    fn read(&mut self, case: &mut ReadCase) -> u64 {
        abi::library::read(case)
    }

    fn write(&mut self, case: &mut WriteCase) -> u64 {
        abi::library::write(case)
    }

    fn words(&mut self, case: &mut WordsCase) -> u64 {
        abi::library::words(case)
    }

    fn compare(&mut self, case: &mut CompareCase) -> u64 {
        abi::library::compare(case)
    }

    fn poll(&mut self, case: &mut PollCase) -> u64 {
        abi::library::poll(case)
    }

    fn listen(&mut self, case: &mut ListenCase) -> u64 {
        abi::library::listen(case)
    }

    fn charge(&mut self, case: &mut ChargeCase) -> u64 {
        abi::library::charge(case)
    }

    fn total(&mut self, case: &mut TotalCase) -> u64 {
        abi::library::total(case)
    }

    fn figures(&mut self, case: &mut FiguresCase) -> u64 {
        abi::library::figures(case)
    }

    fn long_fresh(&mut self, case: &mut LongFreshCase) -> u64 {
        abi::library::long_fresh(case)
    }

    fn long_tick(&mut self, case: &mut LongCase) -> u64 {
        abi::library::long_tick(case)
    }

    fn long_read(&mut self, case: &mut LongReadCase) -> u64 {
        abi::library::long_read(case)
    }

    fn long_write(&mut self, case: &mut LongWriteCase) -> u64 {
        abi::library::long_write(case)
    }

    fn fresh_in(&mut self, case: &mut FreshCase<Both>) -> u64 {
        abi::library_in::fresh(case)
    }

    fn tick_in(&mut self, case: &mut TickCase<Both>) -> u64 {
        abi::library_in::tick(case)
    }

    fn read_in(&mut self, case: &mut ReadCase<Both>) -> u64 {
        abi::library_in::read(case)
    }

    fn write_in(&mut self, case: &mut WriteInCase) -> u64 {
        abi::library_in::write(case)
    }

    fn words_in(&mut self, case: &mut WordsCase<Both>) -> u64 {
        abi::library_in::words(case)
    }

    fn compare_in(&mut self, case: &mut CompareCase<Both>) -> u64 {
        abi::library_in::compare(case)
    }

    fn poll_in(&mut self, case: &mut PollCase<Both>) -> u64 {
        abi::library_in::poll(case)
    }

    fn listen_in(&mut self, case: &mut ListenCase<Both>) -> u64 {
        abi::library_in::listen(case)
    }

    fn replay(&mut self, trace: &[u8]) -> Result<String, String> {
        run_program(&self.replay, trace)
    }

    fn yard(&mut self, trace: &[u8]) -> Result<String, String> {
        run_program(&self.yard, trace)
    }
}

/// What a program writes when it is given these bytes.
#[cfg(feature = "abi")]
fn run_program(path: &str, input: &[u8]) -> Result<String, String> {
    output_of(path, input).map_err(|error| format!("{path}: {error}"))
}

#[cfg(feature = "abi")]
fn output_of(path: &str, input: &[u8]) -> std::io::Result<String> {
    use std::io::{ErrorKind, Write};
    use std::process::{Command, Stdio};
    let mut child = Command::new(path).stdin(Stdio::piped()).stdout(Stdio::piped()).spawn()?;
    let mut stdin = child.stdin.take().expect("a piped standard input");
    let output = std::thread::scope(|scope| {
        let writer = scope.spawn(move || stdin.write_all(input));
        let output = child.wait_with_output()?;
        match writer.join().expect("the writing thread") {
            // A program that refuses may stop before it has read all.
            Err(error) if error.kind() != ErrorKind::BrokenPipe => Err(error),
            _ => Ok(output),
        }
    })?;
    // 01 leaves the exit status open; a program that crashed has none.
    if output.status.code().is_none() {
        return Err(std::io::Error::other(output.status.to_string()));
    }
    String::from_utf8(output.stdout).map_err(std::io::Error::other)
}
