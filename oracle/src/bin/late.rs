//! The words of starts at 2^32 s, which no bytes of the bench program can hold: by 01 and by 0c, with the stock image, then with a
//! reserved code in it.
use oracle::{
    command::Command,
    generator::STOCK,
    model::{Model, MEASUREMENT, TIME_LIMIT},
    time::Time,
};

fn main() {
    let at = Time::from_raw(TIME_LIMIT);
    let mut reserved = STOCK;
    reserved[MEASUREMENT] = 0x1f;
    for image in [STOCK, reserved] {
        for command in [
            Command::Start { at, image },
            Command::StartStored { at, image },
        ] {
            let word = Model::default()
                .refusal(&command)
                .map_or("ok", |refusal| refusal.word());
            println!("{:02x} {word}", command.code());
        }
    }
}
