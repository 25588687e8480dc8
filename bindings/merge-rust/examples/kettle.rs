//! The inspector's kettle: it passed at 09:30 and failed at 14:10, on two tablets. Whichever tablet is synced first, the fail counts.
//! `cargo run -p merge --example kettle`, after `tools/libraries` at the project's root.

use ial::Table;
use merge::{Limit, Store, Test};

fn main() -> Result<(), Box<dyn std::error::Error>> {
    let table = Table::read(include_bytes!("../../../examples/limit.ial"))?;
    let limit = Limit { table: &table, function: 0, budget: 1_000 };
    let (mut morning, mut afternoon) = (Store::empty(), Store::empty());
    morning.record(&limit, Test { appliance: 417, time: 570, tablet: 1, reading: 170 })?;
    afternoon.record(&limit, Test { appliance: 417, time: 850, tablet: 2, reading: 230 })?;
    for order in [[&morning, &afternoon], [&afternoon, &morning]] {
        let mut office = Store::empty();
        for tablet in order {
            office.join(tablet)?;
            let record = office.look(417).ok_or("not tested")?;
            println!("{:02}:{:02} {:?}", record.test.time / 60, record.test.time % 60, record.verdict);
        }
    }
    Ok(())
}
