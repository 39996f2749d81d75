//! A small firmware loop against the live program, as `examples/host.py` has it: `firmware PROGRAM`.
//!
//! PROGRAM writes the next due on each line. What is due is served because a line said so; a bit is what the data pin showed.
use oracle::host::Host;
use std::{io, process::exit};

const SECOND: u128 = 1 << 64;
const EDGE: u128 = SECOND / 200_000;

/// The sensor as firmware meets it.
struct Board {
    host: Host,
    now: u128,
    due: Option<u128>,
    /// The clock and the data line.
    bus: (bool, bool),
    /// Whether the sensor holds the data line low.
    holds: bool,
}

fn moment(words: &str) -> Option<u128> {
    let (seconds, fraction) = words.split_once(' ')?;
    let seconds = u128::from_str_radix(seconds, 16).ok()?;
    Some(seconds << 64 | u128::from_str_radix(fraction, 16).ok()?)
}

impl Board {
    fn new(program: &str) -> io::Result<Self> {
        let mut board = Self {
            host: Host::start(program)?,
            now: 0,
            due: None,
            bus: (true, true),
            holds: false,
        };
        board.send(&[0x0b, 0x00])?;
        Ok(board)
    }

    /// Send one command and read its line; gives what the command added.
    fn send(&mut self, command: &[u8]) -> io::Result<String> {
        self.host.send(command)?;
        let line = self.host.line()?;
        let (head, due) = line.split_once(" due ").unwrap_or((&line, "-"));
        let words: Vec<_> = head.split(' ').collect();
        if words.len() < 5 || words[1] != "ok" {
            return Err(io::Error::other(format!("{command:02x?}: {line}")));
        }
        self.holds = words[4] == "L";
        self.due = moment(due);
        Ok(words[5..].join(" "))
    }

    fn timed(&mut self, code: u8, operands: &[u8]) -> io::Result<String> {
        let time = self.now.to_be_bytes();
        let mut command = vec![code];
        command.extend_from_slice(&time[4..]);
        command.extend_from_slice(operands);
        self.send(&command)
    }

    /// Let time pass, and serve each due moment on the way.
    fn wait(&mut self, until: u128) -> io::Result<()> {
        while let Some(due) = self.due.filter(|&due| due <= until) {
            self.now = due;
            self.timed(0x05, &[])?;
        }
        self.now = until;
        Ok(())
    }

    /// One change of the lines by the master, and what follows from it.
    fn drive(&mut self, scl: bool, sda: bool) -> io::Result<()> {
        self.wait(self.now + EDGE)?;
        loop {
            let (before, after) = (self.bus, (scl, sda && !self.holds));
            if before == after {
                return Ok(());
            }
            self.bus = after;
            let bits = [before.0, before.1, after.0, after.1];
            let levels = bits.iter().fold(0, |byte, &bit| byte << 1 | u8::from(bit));
            self.timed(0x09, &[levels])?;
        }
    }

    fn drive_all(&mut self, levels: &[(bool, bool)]) -> io::Result<()> {
        levels.iter().try_for_each(|&(scl, sda)| self.drive(scl, sda))
    }

    fn start(&mut self) -> io::Result<()> {
        self.drive(self.bus.0, true)?;
        self.drive_all(&[(true, true), (true, false), (false, false)])
    }

    fn stop(&mut self) -> io::Result<()> {
        self.drive_all(&[(false, false), (true, false), (true, true)])
    }

    /// One clock pulse; gives the level that the data line showed.
    fn bit(&mut self, level: bool) -> io::Result<bool> {
        self.drive_all(&[(false, level), (true, level)])?;
        let seen = self.bus.1;
        self.drive(false, level)?;
        Ok(seen)
    }

    fn write_byte(&mut self, byte: u8) -> io::Result<()> {
        for n in (0..8).rev() {
            self.bit(byte >> n & 1 == 1)?;
        }
        match self.bit(true)? {
            false => Ok(()),
            true => Err(io::Error::other("no acknowledge")),
        }
    }

    fn read_byte(&mut self, acknowledge: bool) -> io::Result<u8> {
        let mut byte = 0;
        for _ in 0..8 {
            byte = byte << 1 | u8::from(self.bit(true)?);
        }
        self.bit(!acknowledge)?;
        Ok(byte)
    }

    fn read(&mut self, register: u8, count: usize) -> io::Result<Vec<u8>> {
        self.start()?;
        self.write_byte(0x70)?;
        self.write_byte(register)?;
        self.start()?;
        self.write_byte(0x71)?;
        let bytes: io::Result<Vec<u8>> = (1..=count).map(|n| self.read_byte(n < count)).collect();
        self.stop()?;
        bytes
    }
}

fn run(program: &str) -> io::Result<()> {
    let mut board = Board::new(program)?;
    board.wait(SECOND / 100)?;
    println!("chip id over I2C: {:02x}", board.read(0x00, 1)?[0]);
    let axes = [1_000_000_i32, 0, -500_000].map(i32::to_be_bytes).concat();
    board.timed(0x02, &axes)?;
    board.wait(board.now + SECOND)?;
    println!("bytes 02 to 07 after a second: {:02x?}", board.read(0x02, 6)?);
    board.timed(0x04, &[0, 0])?;
    board.wait(board.now + SECOND / 10)?;
    board.timed(0x04, &3300_u16.to_be_bytes())?;
    println!("stored image after the supply came back: {}", board.timed(0x0a, &[])?);
    Ok(())
}

fn main() {
    let words: Vec<_> = std::env::args().skip(1).collect();
    let [program] = &words[..] else {
        eprintln!("usage: firmware PROGRAM");
        exit(2);
    };
    if let Err(error) = run(program) {
        eprintln!("firmware: {error}");
        exit(1);
    }
}
