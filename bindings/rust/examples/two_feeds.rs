//! Two feeds, a look-up, the table after a withdrawal, and where it differs from the one before.
use std::net::Ipv4Addr;
use yarib::{By, Error, Hop, Table};

fn filled() -> Result<Table, Error> {
    let mut table = Table::new(1_000)?;
    table.add(
        1,
        "10.0.0.0/8".parse()?,
        10,
        Hop::Via(Ipv4Addr::new(192, 0, 2, 1)),
    )?;
    table.add(
        2,
        "10.1.0.0/16".parse()?,
        20,
        Hop::Via(Ipv4Addr::new(192, 0, 2, 2)),
    )?;
    Ok(table)
}

fn main() -> Result<(), Error> {
    let (before, mut after) = (filled()?, filled()?);
    after.withdraw(2, "10.1.0.0/16".parse()?)?;
    let address = Ipv4Addr::new(10, 1, 2, 3);
    for table in [&before, &after] {
        if let Some(route) = table.look_up(address)? {
            println!("{address}: {route}");
        }
    }
    for range in before.differences(&after, By::Hop) {
        let range = range?;
        println!("{} to {} goes another way", range.first, range.last);
    }
    Ok(())
}
