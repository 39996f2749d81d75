//! The bench program's lines, and next due beside them.
use crate::{
    model::{Answer, Model, Refusal, Reply, Report},
    signals::Drive,
    time::Time,
};

const DIGITS: &[u8; 16] = b"0123456789abcdef";

fn byte(out: &mut Vec<u8>, value: u8) {
    out.push(DIGITS[usize::from(value >> 4)]);
    out.push(DIGITS[usize::from(value & 15)]);
}

fn drive(drive: Drive) -> u8 {
    match drive {
        Drive::Floating => b'F',
        Drive::Low => b'L',
        Drive::High => b'H',
    }
}

fn report(out: &mut Vec<u8>, report: Report) {
    let (kind, address, value) = match report {
        Report::Nothing => return out.extend_from_slice(b" -"),
        Report::Completed(address, value) => (b'C', address, value),
        Report::Cut(address, value) => (b'X', address, value),
    };
    out.extend_from_slice(&[b' ', kind, b' ']);
    byte(out, address);
    out.push(b' ');
    byte(out, value);
}

fn answer(out: &mut Vec<u8>, answer: &Answer) {
    match answer {
        Answer::Plain => {}
        Answer::Report(value) => report(out, *value),
        Answer::Image(image) => {
            out.push(b' ');
            image.iter().for_each(|&v| byte(out, v));
        }
        Answer::Viewed(None, _) => out.extend_from_slice(b" --"),
        Answer::Viewed(Some(value), mark) => {
            out.push(b' ');
            byte(out, *value);
            match mark {
                Some(true) => out.extend_from_slice(b" m"),
                Some(false) => out.extend_from_slice(b" s"),
                None => {}
            }
        }
    }
}

/// A command's line without its end: the command byte, the reply's word, the
/// pins after the command, and what an accepted command adds.
pub fn line(out: &mut Vec<u8>, code: u8, reply: &Reply, model: &Model) {
    byte(out, code);
    out.push(b' ');
    out.extend_from_slice(match reply {
        Ok(_) => b"ok",
        Err(refusal) => refusal.word().as_bytes(),
    });
    out.extend_from_slice(&[
        b' ',
        b'0' + u8::from(model.interrupt()),
        b' ',
        drive(model.output()),
        b' ',
        drive(model.data_output()),
    ]);
    if let Ok(value) = reply {
        answer(out, value);
    }
}

/// The line of refusal 7.
pub fn refused(out: &mut Vec<u8>, code: u8, model: &Model) {
    line(out, code, &Err(Refusal::Command), model);
}

/// Next due: 16 digits of seconds, a space, 16 of fraction; `-` for nothing.
pub fn due(out: &mut Vec<u8>, due: Option<Time>) {
    let Some(at) = due else {
        return out.push(b'-');
    };
    for (n, &value) in at.raw().to_be_bytes().iter().enumerate() {
        if n == 8 {
            out.push(b' ');
        }
        byte(out, value);
    }
}
