//! The bench program's loop: commands in, one line for each out.
use crate::{
    command::{decode, Decoded},
    line,
    model::Model,
};
use std::io::{self, Read, Write};

const BLOCK: usize = 1 << 20;

/// What a line holds.
#[derive(Clone, Copy, Debug, PartialEq, Eq)]
pub enum Mode {
    Lines,
    LinesAndDue,
    DueOnly,
}

/// Why a run ended early.
pub enum Stop {
    Io(io::Error),
    /// The text returned an error on an accepted command.
    Fault(String),
}

impl From<io::Error> for Stop {
    fn from(error: io::Error) -> Self {
        Stop::Io(error)
    }
}

pub struct Bench<W: Write> {
    model: Model,
    mode: Mode,
    /// Lines not yet written.
    held: Vec<u8>,
    out: W,
    /// Number of the command at hand, from 1.
    number: u64,
}

impl<W: Write> Bench<W> {
    pub fn new(mode: Mode, out: W) -> Self {
        Self {
            model: Model::default(),
            mode,
            held: Vec::new(),
            out,
            number: 0,
        }
    }

    pub fn number(&self) -> u64 {
        self.number
    }

    fn finish(&mut self, write: impl FnOnce(&mut Vec<u8>, &Model)) -> io::Result<()> {
        if self.mode != Mode::DueOnly {
            write(&mut self.held, &self.model);
        }
        if self.mode == Mode::LinesAndDue {
            self.held.extend_from_slice(b" due ");
        }
        if self.mode != Mode::Lines {
            line::due(&mut self.held, self.model.next_due());
        }
        self.held.push(b'\n');
        if self.held.len() >= BLOCK {
            self.flush()?;
        }
        Ok(())
    }

    pub fn flush(&mut self) -> io::Result<()> {
        self.out.write_all(&self.held)?;
        self.held.clear();
        Ok(())
    }

    /// The command `code` cannot be read: its line is the last.
    fn refuse(&mut self, code: u8) -> io::Result<()> {
        self.number += 1;
        self.finish(|out, model| line::refused(out, code, model))
    }

    /// Take the whole commands of `bytes`. Gives the bytes taken, and whether
    /// the program stops.
    fn take(&mut self, bytes: &[u8]) -> Result<(usize, bool), Stop> {
        let mut taken = 0;
        while taken < bytes.len() {
            match decode(&bytes[taken..]) {
                Decoded::Short => break,
                Decoded::Bad => {
                    self.refuse(bytes[taken])?;
                    return Ok((taken, true));
                }
                Decoded::Command(command, length) => {
                    self.number += 1;
                    let reply = self
                        .model
                        .apply(&command)
                        .map_err(|error| Stop::Fault(format!("{command:?}: {error:?}")))?;
                    taken += length;
                    self.finish(|out, model| line::line(out, command.code(), &reply, model))?;
                }
            }
        }
        Ok((taken, false))
    }

    /// Run on all of `input`. The last lines may still be held.
    pub fn run(&mut self, mut input: impl Read) -> Result<(), Stop> {
        let mut block = vec![0; BLOCK];
        let mut held = 0;
        loop {
            let got = input.read(&mut block[held..])?;
            if got == 0 {
                break;
            }
            held += got;
            let (taken, stop) = self.take(&block[..held])?;
            if stop {
                return Ok(());
            }
            block.copy_within(taken..held, 0);
            held -= taken;
        }
        if held != 0 {
            self.refuse(block[0])?; // Its operands are missing.
        }
        Ok(())
    }
}
