//! The board: its slots, what events do to them, and the records of that.
use crate::device::{Disk, Receive, Requests, Transmit, MOST_SEGMENTS, MOST_ZEROES, SECTOR};
use crate::hex;
use crate::memory::Memory;
use crate::queue::Chain;
use crate::text::{Access, Description, Event, Form, Trace, Win};
use crate::window::{self, Window};

const PAGE: u64 = 4096;
const MOST_MEMORY: u64 = 1 << 28;
const MOST_EXTENDED_MEMORY: u64 = 1 << 32;
const MOST_CACHE: u32 = 65536;
const MOST_PENDING: usize = 4096;

const MOST_SLOTS: usize = 64;
const MOST_SLOTS_OF_VERSION_1: usize = 16;

/// Where the device configuration begins, and its length.
const CONFIG: u16 = 0x100;
const CONFIG_LEN: usize = 64;
const EMERG_WR: u16 = 0x108;
const MOST_SEGMENTS_OF_A_REQUEST: u32 = 126;

/// Why no board is made.
#[derive(Debug)]
pub enum Refused {
    NoSlots,
    TooManySlots,
    BadSize,
    BadBase,
    ExtentOutside,
    ExtentsOverlap,
    BadCapacity,
}

struct Slot {
    memory: Memory,
    block: Window,
    console: Window,
    disk: Disk,
    cols: u16,
    rows: u16,
    pending: Vec<u8>,
    /// What the event under way puts out.
    output: Vec<u8>,
    /// Room for the chain that is served.
    chain: Chain,
}

pub struct Board {
    slots: Vec<Slot>,
    image: Vec<u8>,
}

impl Board {
    pub fn new(trace: &Trace<'_>, image: Vec<u8>) -> Result<Board, Refused> {
        let most = if trace.form == Form::Version1 { MOST_SLOTS_OF_VERSION_1 } else { MOST_SLOTS };
        if trace.slots.is_empty() {
            return Err(Refused::NoSlots);
        }
        if trace.slots.len() > most {
            return Err(Refused::TooManySlots);
        }
        for (number, slot) in trace.slots.iter().enumerate() {
            let most_memory = if trace.form == Form::Extended { MOST_EXTENDED_MEMORY } else { MOST_MEMORY };
            judge(slot, &trace.slots[..number], (image.len() / SECTOR) as u64, most_memory)?;
        }
        if !(1..=MOST_CACHE).contains(&trace.capacity) {
            return Err(Refused::BadCapacity);
        }
        Ok(Board { slots: trace.slots.iter().map(Slot::new).collect(), image })
    }

    pub fn image(&self) -> &[u8] {
        &self.image
    }

    /// Handles an event, and appends its record.
    pub fn step(&mut self, event: Event, fields: &[&[u8]], records: &mut Vec<u8>) {
        let number = event.slot();
        hex::number(number.into(), records);
        let Some(slot) = self.slots.get_mut(usize::from(number)) else {
            records.extend_from_slice(b" badslot - 0 0\n");
            return;
        };
        slot.step(event, fields, &mut self.image, records);
        let [block, console] = [&slot.block, &slot.console].map(|window| b'0' + window.interrupts() as u8);
        if slot.output.is_empty() {
            return records.extend_from_slice(&[b' ', b'-', b' ', block, b' ', console, b'\n']);
        }
        records.push(b' ');
        hex::spell(&slot.output, records);
        slot.output.clear();
        records.extend_from_slice(&[b' ', block, b' ', console, b'\n']);
    }
}

/// Whether a slot may stand behind these on an image of so many sectors.
fn judge(slot: &Description, before: &[Description], sectors: u64, most_memory: u64) -> Result<(), Refused> {
    if slot.len % PAGE != 0 || !(PAGE..=most_memory).contains(&slot.len) {
        return Err(Refused::BadSize);
    }
    if slot.base % PAGE != 0 || u128::from(slot.base) + u128::from(slot.len) > 1 << 64 {
        return Err(Refused::BadBase);
    }
    let Some(end) = slot.start.checked_add(slot.count).filter(|&end| end <= sectors) else {
        return Err(Refused::ExtentOutside);
    };
    let overlaps = |one: &Description| slot.start.max(one.start) < end.min(one.start + one.count);
    if before.iter().any(overlaps) {
        Err(Refused::ExtentsOverlap)
    } else {
        Ok(())
    }
}

impl Slot {
    fn new(description: &Description) -> Slot {
        let &Description { base, len, start, count, read_only, cols, rows, identity } = description;
        let block = window::OF_BLOCK | if read_only { window::RO } else { 0 };
        Slot {
            memory: Memory::new(base, len as usize),
            block: Window::new(window::BLOCK, block, 1),
            console: Window::new(window::CONSOLE, window::OF_CONSOLE, 2),
            disk: Disk { start: SECTOR * start as usize, sectors: count, read_only, identity },
            cols,
            rows,
            pending: Vec::with_capacity(MOST_PENDING),
            output: Vec::new(),
            chain: Chain::default(),
        }
    }

    /// Handles an event, and appends a space and the reply.
    fn step(&mut self, event: Event, fields: &[&[u8]], image: &mut [u8], reply: &mut Vec<u8>) {
        match event {
            Event::Read { access, .. } => {
                let [a, b, c, d, e, f, g, h] = hex::word(self.read(access));
                return reply.extend_from_slice(&[b' ', b'v', b':', a, b, c, d, e, f, g, h]);
            }
            Event::Write { access, value, .. } => self.write(access, value, image),
            Event::MemRead { addr, len, .. } => return self.mem_read(addr, len, reply),
            Event::MemWrite { addr, field, .. } => {
                let digits = fields[field as usize];
                let len = digits.len() / 2;
                let Some(at) = self.memory.place(addr, len as u64) else {
                    return reply.extend_from_slice(b" badrange");
                };
                hex::decode(digits, self.memory.part_mut(at, len));
            }
            Event::Input { field, .. } => {
                reply.extend_from_slice(b" took:");
                return hex::number(self.input(fields[field as usize], image), reply);
            }
            Event::Resize { cols, rows, .. } => {
                (self.cols, self.rows) = (cols, rows);
                self.console.reconfigured();
            }
        }
        reply.extend_from_slice(b" done");
    }

    fn mem_read(&self, addr: u64, len: u32, reply: &mut Vec<u8>) {
        match self.memory.place(addr, len.into()) {
            Some(at) => {
                reply.extend_from_slice(b" b:");
                hex::spell(self.memory.part(at, len as usize), reply);
            }
            None => reply.extend_from_slice(b" badrange"),
        }
    }

    /// Takes in what fits of what is typed, and says how many bytes.
    fn input(&mut self, digits: &[u8], image: &mut [u8]) -> u32 {
        let old = self.pending.len();
        let len = (digits.len() / 2).min(MOST_PENDING - old);
        self.pending.resize(old + len, 0);
        hex::decode(digits, &mut self.pending[old..]);
        self.serve(Win::Console, 0, image);
        len as u32
    }

    fn read(&self, access: Access) -> u32 {
        let Access { win, width, offset } = access;
        if offset >= CONFIG {
            self.read_config(win, usize::from(offset - CONFIG), usize::from(width))
        } else if width == 4 && offset % 4 == 0 {
            match win {
                Win::Block => self.block.read(offset),
                Win::Console => self.console.read(offset),
            }
        } else {
            0
        }
    }

    fn read_config(&self, win: Win, at: usize, width: usize) -> u32 {
        let mut bytes = [0; CONFIG_LEN];
        match win {
            Win::Block => {
                bytes[0..8].copy_from_slice(&self.disk.sectors.to_le_bytes());
                bytes[12..16].copy_from_slice(&MOST_SEGMENTS_OF_A_REQUEST.to_le_bytes());
                bytes[20..24].copy_from_slice(&(SECTOR as u32).to_le_bytes());
                bytes[48..52].copy_from_slice(&MOST_ZEROES.to_le_bytes());
                bytes[52..56].copy_from_slice(&(MOST_SEGMENTS as u32).to_le_bytes());
            }
            Win::Console => {
                bytes[0..2].copy_from_slice(&self.cols.to_le_bytes());
                bytes[2..4].copy_from_slice(&self.rows.to_le_bytes());
            }
        }
        let field = bytes.get(at..at + width).filter(|_| at % width == 0).unwrap_or(&[]);
        field.iter().rev().fold(0, |value, &byte| value << 8 | u32::from(byte))
    }

    fn write(&mut self, access: Access, value: u32, image: &mut [u8]) {
        let Access { win, width, offset } = access;
        if offset >= CONFIG {
            if win == Win::Console && offset == EMERG_WR {
                self.output.push(value as u8);
            }
            return;
        }
        if width != 4 || offset % 4 != 0 {
            return;
        }
        let window = match win {
            Win::Block => &mut self.block,
            Win::Console => &mut self.console,
        };
        if offset == window::QUEUE_NOTIFY {
            let queue = window.notified(value);
            self.serve(win, queue, image);
        } else {
            window.write(offset, value, &self.memory);
        }
    }

    /// Serves a queue, if there is such a one and it can be served.
    fn serve(&mut self, win: Win, queue: u32, image: &mut [u8]) {
        let Slot { memory, block, console, disk, pending, output, chain, .. } = self;
        match (win, queue) {
            (Win::Block, 0) => block.serve(0, &mut Requests { disk, image }, chain, memory),
            (Win::Console, 0) => console.serve(0, &mut Receive { pending }, chain, memory),
            (Win::Console, 1) => console.serve(1, &mut Transmit { output }, chain, memory),
            _ => {}
        }
    }
}
