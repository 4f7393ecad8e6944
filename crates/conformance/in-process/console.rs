//! A console over its registers, to copy: it puts texts out, from split rings of a driver that breaks no rule. Put your device in its place.
//!
//!     rustc --edition 2021 -O -o console_rs console.rs
//!     ../run-on --adapter --standard --only output --without guests --without indirect_desc --without ring_packed ./console_rs

const QUEUE_SEL: usize = 0x30;
const STATUS: usize = 0x70;
const DESC: usize = 0x80;
const DRIVER: usize = 0x90;
const DEVICE: usize = 0xa0;

/// Its guest's memory, and what the driver wrote to each register, and to those of each queue.
struct Console {
    base: u64,
    ram: Vec<u8>,
    all: [u32; 64],
    queues: [[u32; 64]; 2],
    place: u16,
}

impl Console {
    /// Where a part of the transmit queue lies in `ram`.
    fn area(&self, which: usize, offset: u64) -> usize {
        let words = &self.queues[1][which / 4..];
        ((u64::from(words[1]) << 32 | u64::from(words[0])) + offset - self.base) as usize
    }

    fn number(&self, at: usize, len: usize) -> u64 {
        self.ram[at..at + len].iter().rev().fold(0, |number, &byte| number << 8 | u64::from(byte))
    }

    fn serve(&mut self) -> Vec<u8> {
        let (mut out, size) = (Vec::new(), u64::from(self.queues[1][0x38 / 4]));
        while self.number(self.area(DRIVER, 2), 2) as u16 != self.place {
            let position = u64::from(self.place) % size;
            let head = self.number(self.area(DRIVER, 4 + 2 * position), 2);
            let (mut flags, mut next) = (1, head);
            while flags & 1 != 0 {
                let one = self.area(DESC, 16 * next);
                let (at, len) = ((self.number(one, 8) - self.base) as usize, self.number(one + 8, 4) as usize);
                (flags, next) = (self.number(one + 12, 2), self.number(one + 14, 2));
                out.extend_from_slice(if flags & 2 == 0 { &self.ram[at..at + len] } else { &[] });
            }
            self.place = self.place.wrapping_add(1);
            let (used, idx) = (self.area(DEVICE, 4 + 8 * position), self.area(DEVICE, 2));
            self.ram[used..used + 8].copy_from_slice(&head.to_le_bytes());
            self.ram[idx..idx + 2].copy_from_slice(&self.place.to_le_bytes());
            self.all[0x60 / 4] |= u32::from(self.ram[self.area(DRIVER, 0)] & 1 == 0);
        }
        out
    }

    fn read(&self, offset: usize) -> u32 {
        let selected = self.queues.get(self.all[QUEUE_SEL / 4] as usize);
        match offset {
            0x00 | 0x04 | 0x08 => [0x7472_6976, 2, 3][offset / 4],
            0x10 => u32::from(self.all[0x14 / 4] == 1),
            0x34 | 0x44 => selected.map_or(0, |queue| if offset == 0x34 { 256 } else { queue[0x44 / 4] }),
            _ => self.all[offset / 4],
        }
    }

    /// What it puts out.
    fn write(&mut self, offset: usize, value: u32) -> Vec<u8> {
        match (offset, self.all[QUEUE_SEL / 4] as usize) {
            (STATUS, _) if value == 0 => (self.all, self.queues, self.place) = ([0; 64], [[0; 64]; 2], 0),
            (0x50, _) if value == 1 && self.all[STATUS / 4] & 0xcc == 12 && self.queues[1][0x44 / 4] == 1 => return self.serve(),
            (0x64, _) => self.all[0x60 / 4] &= !value,
            (0x38 | 0x44 | 0x80..=0xff, index @ 0..=1) => self.queues[index][offset / 4] = value,
            _ => self.all[offset / 4] = value,
        }
        Vec::new()
    }
}

fn main() {
    let text = std::fs::read_to_string(std::env::args().nth(1).expect("a trace")).expect("a trace that can be read");
    let lines: Vec<Vec<&str>> = text.lines().map(|line| line.split(' ').collect()).collect();
    let number = |field: &str| u64::from_str_radix(field, 16).unwrap_or(0);
    let bytes = |field: &str| -> Vec<u8> { (0..field.len() / 2).map(|at| number(&field[2 * at..2 * at + 2]) as u8).collect() };
    let spelled = |found: &[u8]| if found.is_empty() { "-".into() } else { found.iter().map(|byte| format!("{byte:02x}")).collect::<String>() };
    let (base, len) = (number(lines[2][1]), number(lines[2][2]) as usize);
    let mut console = Console { base, ram: vec![0; len], all: [0; 64], queues: [[0; 64]; 2], place: 0 };
    for line in &lines[3..] {
        let (at, offset, last) = (number(line[2]).wrapping_sub(base) as usize, number(line[3 % line.len()]) as usize, line[line.len() - 1]);
        let (is_register, content) = (line[2] == "c" && line.get(4) == Some(&"4") && offset < 0x100, bytes(last));
        let (reply, out) = match line[0] {
            "r" => (format!("v:{:08x}", if is_register { console.read(offset) } else { 0 }), vec![]),
            "w" if line[2] == "c" && offset == 0x108 => ("done".into(), vec![number(last) as u8]),
            "w" => ("done".into(), if is_register { console.write(offset, number(last) as u32) } else { vec![] }),
            "mr" if at < len && offset <= len - at => (format!("b:{}", spelled(&console.ram[at..at + offset])), vec![]),
            "mw" if at < len && content.len() <= len - at => (console.ram[at..at + content.len()].copy_from_slice(&content), ("done".into(), vec![])).1,
            "mr" | "mw" => ("badrange".into(), vec![]),
            "in" => (format!("took:{:x}", content.len()), vec![]),
            _ => ("done".into(), vec![]),
        };
        println!("0 {reply} {} 0 {}", spelled(&out), console.all[0x60 / 4]);
    }
}
