//! Streams of commands, taken apart and joined.
use crate::{
    command::{decode, Command, Decoded},
    generator::STOCK,
    model::Model,
    time::Time,
};

/// The commands of a stream. What cannot be read is one command, the last.
pub fn commands(bytes: &[u8]) -> Vec<&[u8]> {
    let (mut commands, mut rest) = (Vec::new(), bytes);
    while !rest.is_empty() {
        let length = match decode(rest) {
            Decoded::Command(_, length) => length,
            Decoded::Short | Decoded::Bad => rest.len(),
        };
        let (command, others) = rest.split_at(length);
        commands.push(command);
        rest = others;
    }
    commands
}

/// Whether a command is a start that is accepted: no state decides on that.
fn starts(bytes: &[u8]) -> bool {
    let Decoded::Command(command, _) = decode(bytes) else {
        return false;
    };
    command.starts() && Model::default().refusal(&command).is_none()
}

/// The commands of a stream as they stand in a joined one. `started`: a start
/// at time 0 with the stock image, where the bench program begins, goes before
/// them unless they begin with an accepted start. Only as the `last` part they keep what
/// cannot be read, since the program stops there.
pub fn part(bytes: &[u8], started: bool, last: bool) -> Vec<Vec<u8>> {
    let readable = |bytes: &&[u8]| matches!(decode(bytes), Decoded::Command(..));
    let mut kept = commands(bytes);
    kept.retain(|bytes| last || readable(bytes));
    let mut part = Vec::new();
    if started && !kept.first().is_some_and(|bytes| starts(bytes)) {
        let mut start = Vec::new();
        let at = Time::ZERO;
        Command::Start { at, image: STOCK }.encode(&mut start);
        part.push(start);
    }
    part.extend(kept.into_iter().map(<[u8]>::to_vec));
    part
}
