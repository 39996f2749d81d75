//! The programs to compare, and how they differ from the text on a stream.
use oracle::{
    bench::{Bench, Mode, Stop},
    command::{decode, Command, Decoded},
    model::Model,
};
use std::{
    io::{Read, Write},
    process::{self, exit, Stdio},
    sync::mpsc::{self, RecvTimeoutError},
    thread,
    time::Duration,
};

/// Sample phases up to which a stream is run. The generator stays far below;
/// a shrunk stream may lack the command that put the sensor to sleep.
const PHASES: u128 = 20_000_000;

/// No line of a command is longer.
const LINE: u64 = 100;
/// A program that runs longer is ended.
const PATIENCE: Duration = Duration::from_secs(60);

pub struct Program {
    path: String,
    mode: Mode,
}

/// The first line, from 0, on which a program and the text differ.
pub struct Difference {
    pub line: usize,
    pub rust: String,
    pub port: String,
}

pub enum Verdict {
    Same,
    Differs(Difference),
    /// The stream simulates too many sample phases.
    TooLong,
}

/// Sample phases that a command lets pass.
fn phases(model: &Model, command: &Command) -> u128 {
    let still = command.starts() || matches!(command, Command::StoredImage { .. });
    let at = command.time().filter(|_| !still);
    let passes = model.refusal(command).is_none() && model.next_sample().is_some();
    let from = model.last().raw();
    let length = at.filter(|_| passes).map_or(0, |at| at.raw() - from);
    (length >> 32) * 12_000 >> 32
}

/// Whether a stream stays within the phases allowed.
fn short_enough(bytes: &[u8]) -> bool {
    let (mut model, mut rest, mut passed) = (Model::default(), bytes, 0);
    while let Some(Decoded::Command(command, length)) = (!rest.is_empty()).then(|| decode(rest)) {
        rest = &rest[length..];
        passed += phases(&model, &command);
        if passed > PHASES || model.apply(&command).is_err() {
            return false;
        }
    }
    true
}

/// The text's lines.
fn lines(bytes: &[u8], mode: Mode) -> Vec<u8> {
    let mut out = Vec::new();
    let mut bench = Bench::new(mode, &mut out);
    let ran = bench.run(bytes);
    if let Err(Stop::Fault(what)) = ran {
        println!("FINDING at command {}: {what}", bench.number());
        exit(3);
    }
    bench.flush().expect("memory takes all");
    out
}

fn difference(rust: &[u8], port: &[u8]) -> Verdict {
    if rust == port {
        return Verdict::Same;
    }
    let text = |line: Option<&[u8]>| match line {
        Some(line) => String::from_utf8_lossy(line).trim_end().to_string(),
        None => "(the output ends)".to_string(),
    };
    let [mut rust, mut port] = [rust, port].map(|out| out.split_inclusive(|&byte| byte == b'\n'));
    for line in 0.. {
        let (wanted, got) = (rust.next(), port.next());
        if got != wanted {
            return Verdict::Differs(Difference {
                line,
                rust: text(wanted),
                port: text(got),
            });
        }
    }
    unreachable!("the outputs are not the same")
}

impl Program {
    pub fn trace(path: &str) -> Self {
        let (path, mode) = (path.into(), Mode::LinesAndDue);
        Self { path, mode }
    }
    pub fn bench(path: &str) -> Self {
        let (path, mode) = (path.into(), Mode::Lines);
        Self { path, mode }
    }
    pub fn name(&self) -> &str {
        self.path.rsplit('/').next().unwrap_or(&self.path)
    }

    /// What the program writes.
    fn output(&self, bytes: &[u8]) -> Vec<u8> {
        let child = process::Command::new(&self.path)
            .stdin(Stdio::piped())
            .stdout(Stdio::piped())
            .spawn();
        let mut child = child.unwrap_or_else(|error| {
            eprintln!("compare: {}: {error}", self.path);
            exit(2);
        });
        let mut input = child.stdin.take().expect("a pipe");
        let output = child.stdout.take().expect("a pipe");
        let mut output = output.take(1000 + LINE * bytes.len() as u64);
        let (done, ended) = mpsc::channel::<()>();
        thread::scope(|scope| {
            // It fails where the program stops early, which is no fault.
            scope.spawn(move || drop(input.write_all(bytes)));
            let read = scope.spawn(move || {
                let mut out = Vec::new();
                let read = output.read_to_end(&mut out);
                read.expect("the program's output can be read");
                drop(done);
                out
            });
            if ended.recv_timeout(PATIENCE) == Err(RecvTimeoutError::Timeout) {
                child.kill().expect("the program can be ended");
            }
            child.wait().expect("the program ends");
            read.join().expect("its output is read")
        })
    }

    pub fn verdict(&self, bytes: &[u8]) -> Verdict {
        if !short_enough(bytes) {
            return Verdict::TooLong;
        }
        difference(&lines(bytes, self.mode), &self.output(bytes))
    }
}

/// The verdicts of all programs on one stream, run side by side.
pub fn verdicts<'a>(programs: &'a [Program; 2], bytes: &[u8]) -> [(&'a Program, Verdict); 2] {
    thread::scope(|scope| {
        let outputs = programs.each_ref().map(|program| {
            let output = scope.spawn(|| program.output(bytes));
            (program, output)
        });
        outputs.map(|(program, output)| {
            let rust = lines(bytes, program.mode);
            let port = output.join().expect("a program runs");
            (program, difference(&rust, &port))
        })
    })
}
