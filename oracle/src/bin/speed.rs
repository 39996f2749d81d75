//! Measures two bench programs on the same streams: `speed FOLDER RUST PORT`.
//!
//! FOLDER holds `PROFILE-COUNT.bin`, made by `gen`; streams with long waits and
//! with moving accelerations are put beside them. Each program runs on each
//! stream fifteen times, in turn, and its least user time counts. Prints a
//! Markdown table. This process stays small: a child's peak memory counts from
//! its parent's.
use oracle::{command::Command, generator::STOCK, model::Model, Time};
use std::{
    fs::{self, File},
    io,
    process::{self, exit, Stdio},
};

const PROFILES: [&str; 4] = ["mixed", "i2c", "spi", "auto"];
const COMMANDS: u64 = 500_000;
const GROWTH: [u64; 3] = [100_000, 200_000, 400_000];
/// Seconds between the calls of a stream with long waits, and their number.
const GAPS: [u64; 3] = [10, 20, 40];
const CALLS: u64 = 10;
/// Sample phases in a second.
const PHASES: u64 = 12_000;
/// Settings that move all axes, and how many there are in a second: a little
/// less than scans, so that they come at any place of one.
const SETTINGS: u64 = 200_000;
const PACE: u64 = 2900;
/// Settings a few milliseconds apart: the low-pass stage just does not settle.
const SWINGS: u64 = 20_000;
const SWING: u64 = 250;
const RUNS: u32 = 15;

#[repr(C)]
#[derive(Default)]
struct Span {
    seconds: i64,
    micros: i64,
}

/// As Linux fills it on machines with 64 bits.
#[repr(C)]
#[derive(Default)]
struct Usage {
    user: Span,
    system: Span,
    peak_kilobytes: i64,
    rest: [i64; 13],
}

extern "C" {
    fn wait4(pid: i32, status: *mut i32, options: i32, usage: *mut Usage) -> i32;
}

/// User time in seconds, and peak memory in kilobytes.
#[derive(Clone, Copy)]
struct Cost {
    user: f64,
    peak: i64,
}

/// One run of a program on a stream.
fn run(program: &str, stream: &str) -> io::Result<Cost> {
    let child = process::Command::new(program)
        .stdin(File::open(stream)?)
        .stdout(Stdio::null())
        .spawn()?;
    let (mut status, mut usage) = (0, Usage::default());
    // SAFETY: both pointers are to live values of the types that wait4 fills,
    // and the child is waited for nowhere else.
    let ended = unsafe { wait4(child.id() as i32, &mut status, 0, &mut usage) };
    if ended < 0 || status != 0 {
        return Err(io::Error::other(format!("{program} failed on {stream}")));
    }
    Ok(Cost {
        user: usage.user.seconds as f64 + usage.user.micros as f64 / 1e6,
        peak: usage.peak_kilobytes,
    })
}

struct Bench {
    folder: String,
    programs: [String; 2],
}

impl Bench {
    /// The best of several runs of both programs on a stream.
    fn costs(&self, name: &str) -> io::Result<[Cost; 2]> {
        let stream = format!("{}/{name}.bin", self.folder);
        let mut best = [Cost {
            user: f64::MAX,
            peak: 0,
        }; 2];
        for _ in 0..RUNS {
            for (program, best) in self.programs.iter().zip(&mut best) {
                let cost = run(program, &stream)?;
                best.user = best.user.min(cost.user);
                best.peak = best.peak.max(cost.peak);
            }
        }
        Ok(best)
    }

    fn keep(&self, name: String, stream: &Stream) -> io::Result<String> {
        fs::write(format!("{}/{name}.bin", self.folder), &stream.bytes)?;
        Ok(name)
    }

    /// A stream of calls `seconds` apart at a bandwidth code, awake throughout.
    /// The low-pass stage has settled after the first milliseconds.
    fn gaps(&self, seconds: u64, bandwidth: u8) -> io::Result<String> {
        let (mut stream, wake) = Stream::awake();
        stream.write(0x14, 0x08 | bandwidth);
        for n in 1..=CALLS {
            let at = wake.raw() + (u128::from(seconds * n) << 64);
            stream.put(Command::Falling {
                at: Time::from_raw(at),
            });
        }
        self.keep(format!("gaps-{seconds}-{bandwidth}"), &stream)
    }

    /// A stream of settings, `pace` a second, that throw all axes from 1 g to
    /// -1 g and back.
    fn settings(&self, count: u64, pace: u64) -> io::Result<String> {
        let (mut stream, wake) = Stream::awake();
        for n in 1..=count {
            let at = wake.raw() + (u128::from(n) << 64) / u128::from(pace);
            let axis = [1_000_000, -1_000_000][(n % 2) as usize];
            stream.put(Command::Accelerations {
                at: Time::from_raw(at),
                axes: [axis; 3],
            });
        }
        self.keep(format!("settings-{count}-{pace}"), &stream)
    }
}

#[derive(Default)]
struct Stream {
    model: Model,
    bytes: Vec<u8>,
}

impl Stream {
    /// From a start to the moment at which sampling begins.
    fn awake() -> (Self, Time) {
        let mut stream = Self::default();
        stream.put(Command::Start {
            at: Time::ZERO,
            image: STOCK,
        });
        let wake = stream.model.next_due().expect("the sensor wakes");
        stream.put(Command::Due { at: wake });
        (stream, wake)
    }
    /// Add a command, which the text must accept. Waits are not simulated.
    fn put(&mut self, command: Command) {
        assert!(self.model.refusal(&command).is_none(), "{command:?}");
        if !matches!(command, Command::Falling { .. }) {
            let reply = self.model.apply(&command);
            assert!(matches!(reply, Ok(Ok(_))), "{command:?}");
        }
        command.encode(&mut self.bytes);
    }
    /// Write a register over SPI, at the last accepted time.
    fn write(&mut self, address: u8, value: u8) {
        let at = self.model.last();
        self.put(Command::Select(true));
        for byte in [address, value] {
            for bit in (0..8).rev() {
                let data = byte >> bit & 1 != 0;
                self.put(Command::Rising { at, data });
            }
        }
        self.put(Command::Select(false));
    }
}

/// Digits in groups of three.
fn grouped(number: f64) -> String {
    let digits = format!("{number:.0}");
    let mut out = String::new();
    for (n, digit) in digits.chars().enumerate() {
        if n != 0 && (digits.len() - n) % 3 == 0 {
            out.push(',');
        }
        out.push(digit);
    }
    out
}

fn row(what: &str, shown: [String; 2], ratio: f64) {
    println!("| {what} | {} | {} | {ratio:.2} |", shown[0], shown[1]);
}

fn times(costs: [Cost; 2]) -> ([String; 2], f64) {
    let shown = costs.map(|cost| format!("{:.1}", cost.user * 1000.0));
    (shown, costs[1].user / costs[0].user)
}

impl Bench {
    /// Commands a second, and peak memory.
    fn rates(&self) -> io::Result<()> {
        let count = grouped(COMMANDS as f64);
        for profile in PROFILES {
            let costs = self.costs(&format!("{profile}-{COMMANDS}"))?;
            let rates = costs.map(|cost| grouped(COMMANDS as f64 / cost.user));
            let what = format!("`{profile}`, {count} commands: commands a second");
            row(&what, rates, costs[1].user / costs[0].user);
            let peaks = costs.map(|cost| grouped(cost.peak as f64));
            let what = format!("`{profile}`, {count} commands: peak memory, kB");
            row(&what, peaks, costs[1].peak as f64 / costs[0].peak as f64);
        }
        Ok(())
    }

    /// Nanoseconds a sample phase.
    fn phases(&self) -> io::Result<()> {
        let seconds = GAPS[GAPS.len() - 1];
        let phases = seconds * CALLS * PHASES;
        for bandwidth in [6, 0] {
            let costs = self.costs(&self.gaps(seconds, bandwidth)?)?;
            let shown = costs.map(|cost| format!("{:.1}", cost.user * 1e9 / phases as f64));
            let count = grouped(phases as f64);
            let what = format!("bandwidth {bandwidth}, settled, {count} sample phases: ns a phase");
            row(&what, shown, costs[1].user / costs[0].user);
        }
        Ok(())
    }

    /// Accelerations that move: settings within the scans, and the samples of
    /// a stage that does not settle.
    fn moving(&self) -> io::Result<()> {
        let (shown, ratio) = times(self.costs(&self.settings(SETTINGS, PACE)?)?);
        let count = grouped(SETTINGS as f64);
        row(&format!("{count} settings that move: ms"), shown, ratio);
        let phases = SWINGS * PHASES / SWING;
        let costs = self.costs(&self.settings(SWINGS, SWING)?)?;
        let shown = costs.map(|cost| format!("{:.1}", cost.user * 1e9 / phases as f64));
        let count = grouped(phases as f64);
        let what = format!("bandwidth 6, moving, {count} sample phases: ns a phase");
        row(&what, shown, costs[1].user / costs[0].user);
        Ok(())
    }

    /// How time grows with the stream and with simulated time.
    fn growth(&self) -> io::Result<()> {
        for count in GROWTH {
            let costs = self.costs(&format!("mixed-{count}"))?;
            let count = grouped(count as f64);
            let (shown, ratio) = times(costs);
            row(&format!("`mixed`, {count} commands: ms"), shown, ratio);
        }
        for seconds in GAPS {
            let (shown, ratio) = times(self.costs(&self.gaps(seconds, 6)?)?);
            let what = format!("bandwidth 6, {CALLS} calls {seconds} s apart: ms");
            row(&what, shown, ratio);
        }
        Ok(())
    }

    fn all(&self) -> io::Result<()> {
        println!("| what | Rust | port | port's time or memory by Rust's |");
        println!("|---|---|---|---|");
        self.rates()?;
        self.phases()?;
        self.moving()?;
        self.growth()
    }
}

fn main() {
    let words: Vec<_> = std::env::args().skip(1).collect();
    let Ok([folder, rust, port]) = <[String; 3]>::try_from(words) else {
        eprintln!("usage: speed FOLDER RUST PORT");
        exit(2);
    };
    let programs = [rust, port];
    if let Err(error) = (Bench { folder, programs }).all() {
        eprintln!("speed: {error}");
        exit(1);
    }
}
