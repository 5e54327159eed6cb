//! Prints the map of the README.

use sezhimow::{Class, Descriptor, Port, Told};

fn main() -> Result<(), Told> {
    let mut port = Port::open(16, 0, 0)?;
    port.admit(
        5,
        1024,
        Descriptor {
            fixed: 2560,
            assured: 0,
            max: 2560,
            class: Class::None,
        },
    )?;
    let map = port.map()?;
    let text: String = map.bytes.iter().map(|byte| format!("{byte:02x}")).collect();
    println!("map {} {text}", map.frame);
    Ok(())
}
