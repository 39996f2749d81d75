//! A program at the other end of two pipes: a command goes out, its line comes back.
use std::{
    io::{self, BufRead, BufReader, Write},
    process::{Child, ChildStdin, Command, Stdio},
    sync::mpsc::{channel, Receiver},
    thread,
    time::Duration,
};

/// How long a line may take.
const PATIENCE: Duration = Duration::from_secs(20);

pub struct Host {
    program: Child,
    input: ChildStdin,
    lines: Receiver<io::Result<String>>,
}

impl Host {
    pub fn start(program: &str) -> io::Result<Self> {
        let mut program = Command::new(program)
            .stdin(Stdio::piped())
            .stdout(Stdio::piped())
            .spawn()?;
        let (Some(input), Some(output)) = (program.stdin.take(), program.stdout.take()) else {
            return Err(io::Error::other("the program has no pipes"));
        };
        let (send, lines) = channel();
        thread::spawn(move || {
            for line in BufReader::new(output).lines() {
                if send.send(line).is_err() {
                    break;
                }
            }
        });
        Ok(Self {
            program,
            input,
            lines,
        })
    }

    /// Send one piece of a command.
    pub fn send(&mut self, piece: &[u8]) -> io::Result<()> {
        self.input.write_all(piece)?;
        self.input.flush()
    }

    /// The next line; an error if none comes in time.
    pub fn line(&mut self) -> io::Result<String> {
        self.lines
            .recv_timeout(PATIENCE)
            .map_err(|_| io::Error::other("no line came"))?
    }

    /// Whether a line is there that nobody asked for.
    pub fn has_more(&self) -> bool {
        self.lines.try_recv().is_ok()
    }
}

impl Drop for Host {
    fn drop(&mut self) {
        let _ = self.program.kill();
        let _ = self.program.wait();
    }
}
