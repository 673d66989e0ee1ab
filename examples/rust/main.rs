//! The same as examples/c/main.c: puts two declarations at the end of a set, prints the canonical text and the fingerprint of each, shows a refusal, and
//! puts another one in place of the second.

mod dhokyurai;

use dhokyurai::{Refusal, Set};

const TEXTS: [&str; 3] = [
    r#"{"type":"record","name":"Assembly","namespace":"link","fields":[{"name":"id","type":"long"}]}"#,
    r#"{"type":"array","items":"link.Assembly"}"#,
    r#"{"type":"array","items":"Assembly"}"#,
];

fn main() -> Result<(), Refusal> {
    let mut set = Set::new();
    for text in TEXTS {
        let place = set.count();
        match set.put(place, text.as_bytes()) {
            Err(r) => println!("refusal {}: declaration {}, byte {}", r.number, r.place, r.position),
            Ok(_) => println!("{}: {} {}", place, set.canonical(place)?, set.fingerprint(place)?),
        }
    }
    println!("row 1 of declaration 1 is named {}", set.full_name(1, 1)?);
    let counts = set.put(1, b"\"link.Assembly\"")?;
    println!("{} declarations, {} rows", counts.declarations, counts.rows);
    Ok(())
}
