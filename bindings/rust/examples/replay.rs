//! Answers management lines of port 0 as `olt plan` does: a refusal is printed by its code alone.

use sezhimow::{Class, Descriptor, Port, Told};
use std::io::{stdin, stdout, BufRead, BufWriter, Write};

fn number(word: &str) -> u64 {
    word.parse().expect("a number")
}

fn descriptor(words: &[&str]) -> Descriptor {
    let class = match words[3] {
        "na" => Class::NonAssured,
        "be" => Class::BestEffort,
        _ => Class::None,
    };
    Descriptor {
        fixed: number(words[0]),
        assured: number(words[1]),
        max: number(words[2]),
        class,
    }
}

fn occupancy(word: &&str) -> Option<u32> {
    (*word != "x").then(|| number(word) as u32)
}

fn show(port: &mut Port) -> Result<String, Told> {
    let state = port.state()?;
    let line = match state.cause {
        None => "up".to_string(),
        Some(cause) => format!("down {cause}"),
    };
    Ok(format!(
        "show {line} next {} allocs {} onus {} guaranteed {} capacity {}",
        state.next_frame, state.alloc_ids, state.onus, state.guaranteed, state.capacity
    ))
}

fn map(port: &mut Port) -> Result<String, Told> {
    let map = port.map()?;
    let text: String = map.bytes.iter().map(|byte| format!("{byte:02x}")).collect();
    Ok(format!("map {} {text}", map.frame))
}

fn answer(port: &mut Port, words: &[&str]) -> Result<String, Told> {
    match (words[1], &words[2..]) {
        ("map", _) => return map(port),
        ("show", _) => return show(port),
        ("admit", rest) => port.admit(
            number(rest[0]) as u16,
            number(rest[1]) as u16,
            descriptor(&rest[2..]),
        )?,
        ("change", rest) => port.change(number(rest[0]) as u16, descriptor(&rest[1..]))?,
        ("remove", rest) => port.remove(number(rest[0]) as u16)?,
        ("report", rest) => {
            let occupancies: Vec<_> = rest[2..].iter().map(occupancy).collect();
            port.report(number(rest[0]), number(rest[1]) as u16, &occupancies)?
        }
        ("fail", rest) => port.fail(number(rest[0]) as u8)?,
        ("restore", _) => port.restore()?,
        (other, _) => panic!("no such line: {other}"),
    }
    Ok(format!("ok {}", port.state()?.taken - 1))
}

fn main() -> Result<(), Box<dyn std::error::Error>> {
    let mut port = Port::open(16, 0, 0)?;
    let mut out = BufWriter::new(stdout().lock());
    for line in stdin().lock().lines() {
        let line = line?;
        let words: Vec<&str> = line.split_whitespace().collect();
        match answer(&mut port, &words) {
            Ok(text) => writeln!(out, "{text}")?,
            Err(told) => writeln!(out, "err E{:02}", told.number())?,
        }
    }
    Ok(())
}
