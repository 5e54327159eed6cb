//! 32 bursty ONUs under one port for 10,000 frames: what they request, what they are granted, what waits.
//!
//! Writes a line for each 100 frames (frame, words requested, granted, waiting), which any plotter draws, and a line of sums on
//! standard error. Each ONU has one best-effort Alloc-ID, sends bursts at random, and reports its queue for each map.

use sezhimow::{decode_map, Class, Descriptor, Port, Told};

const ONUS: u16 = 32;
const FRAMES: u64 = 10_000;
const STEP: u64 = 100;

/// A queue of words: off for a while, and then on at a rate of its own.
struct Onu {
    seed: u64,
    queue: u64,
    on: bool,
    rate: u64,
}

impl Onu {
    fn new(number: u16) -> Onu {
        let mut onu = Onu {
            seed: u64::from(number) + 1,
            queue: 0,
            on: false,
            rate: 0,
        };
        onu.rate = 100 + onu.random() % 600;
        onu
    }

    fn random(&mut self) -> u64 {
        self.seed = self
            .seed
            .wrapping_mul(6_364_136_223_846_793_005)
            .wrapping_add(1_442_695_040_888_963_407);
        self.seed >> 33
    }

    fn arrive(&mut self) -> u64 {
        if self.random() % 100 == 0 {
            self.on = !self.on;
        }
        let words = if self.on {
            self.random() % (2 * self.rate)
        } else {
            0
        };
        self.queue += words;
        words
    }

    fn send(&mut self, granted: u64) -> u64 {
        let sent = granted.min(self.queue);
        self.queue -= sent;
        sent
    }
}

/// Makes a map, and answers it. Returns the words that arrived and those that were sent.
fn frame(port: &mut Port, onus: &mut [Onu]) -> Result<(u64, u64), Told> {
    let arrived = onus.iter_mut().map(Onu::arrive).sum();
    let map = port.map()?;
    let mut sent = 0;
    for structure in decode_map(&map.bytes).map_err(|(told, _)| told)?.structures {
        let number = structure.alloc_id - 1024;
        let onu = &mut onus[usize::from(number)];
        sent += onu.send(u64::from(structure.grant) - 1);
        port.report(map.frame, number, &[Some(onu.queue.min(16_777_215) as u32)])?;
    }
    Ok((arrived, sent))
}

fn main() -> Result<(), Told> {
    let mut onus: Vec<Onu> = (0..ONUS).map(Onu::new).collect();
    let mut port = Port::open(16, 0, 0)?;
    for number in 0..ONUS {
        let descriptor = Descriptor {
            fixed: 0,
            assured: 2560,
            max: 1_000_000,
            class: Class::BestEffort,
        };
        port.admit(number, 1024 + number, descriptor)?;
    }
    let (mut requested, mut granted, mut waiting) = (0, 0, 0);
    for step in 1..=FRAMES / STEP {
        let (mut arrived, mut sent) = (0, 0);
        for _ in 0..STEP {
            let (more, gone) = frame(&mut port, &mut onus)?;
            arrived += more;
            sent += gone;
        }
        waiting = onus.iter().map(|onu| onu.queue).sum();
        println!("{} {arrived} {sent} {waiting}", step * STEP);
        requested += arrived;
        granted += sent;
        port.turn()?;
    }
    eprintln!("{FRAMES} frames: {requested} words requested, {granted} granted, {waiting} waiting");
    Ok(())
}
