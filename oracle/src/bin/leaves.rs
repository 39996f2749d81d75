//! Single functions of the text: `leaves gen SEED COUNT > RECORDS` and
//! `leaves answer < RECORDS > ANSWERS`.
use oracle::records::{random::Records, Leaves, Record, ANSWER, RECORD};
use std::{
    io::{self, Read, Write},
    process::exit,
};

fn answers(records: &[u8]) -> Vec<u8> {
    let mut leaves = Leaves::default();
    let mut out = Vec::with_capacity(records.len() / RECORD * ANSWER);
    for bytes in records.chunks_exact(RECORD) {
        let (first, second) = leaves.answer(&Record::from_bytes(bytes));
        out.extend_from_slice(&first.to_be_bytes());
        out.extend_from_slice(&second.to_be_bytes());
    }
    out
}

fn main() -> io::Result<()> {
    let words: Vec<_> = std::env::args().skip(1).collect();
    let words: Vec<_> = words.iter().map(String::as_str).collect();
    let out = match words[..] {
        ["answer"] => {
            let mut records = Vec::new();
            io::stdin().lock().read_to_end(&mut records)?;
            answers(&records)
        }
        ["gen", seed, count] => {
            let (Ok(seed), Ok(count)) = (seed.parse(), count.parse()) else {
                exit(2);
            };
            let records = Records::make(seed, count);
            records.iter().flat_map(Record::bytes).collect()
        }
        _ => {
            eprintln!("usage: leaves gen SEED COUNT > RECORDS");
            eprintln!("       leaves answer < RECORDS > ANSWERS");
            exit(2);
        }
    };
    io::stdout().lock().write_all(&out)
}
