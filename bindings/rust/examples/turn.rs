//! The paper's `turn`, run with its phi and, translated, without; then the translation as text.
//! `cargo run -p ial --example turn`, after `tools/libraries ial` at the project's root.

use ial::{End, Refused, Table};

fn main() -> Result<(), Refused> {
    let source = Table::read(include_bytes!("../../../examples/turn.ial"))?;
    source.check()?;
    let translation = source.translate(0)?;
    for n in 0..3 {
        for (name, table) in [("source", &source), ("translation", &translation)] {
            let run = table.run(0, &[7, 9, n], 1_000)?;
            match run.end {
                End::Ended(value) => println!("{name}: turn(7, 9, {n}) = {value} after {} steps", run.steps),
                End::Stopped { number, place } => println!("{name}: stopped with {number} at {place}"),
            }
        }
    }
    print!("{}", String::from_utf8_lossy(&translation.write()?));
    Ok(())
}
