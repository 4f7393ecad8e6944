//! The host of `host.c`, in Rust: the same guest, on a thread of its own, and the same lines.

use kalyubos::{Board, Budget, Config, Error, Slot, Window};
use std::error;
use std::num::NonZeroU32;
use std::thread;

const MEMORY: u64 = 0x8000_0000;
const TABLE: u64 = 0x1000;
const AVAIL: u64 = 0x2000;
const USED: u64 = 0x3000;
const DATA: u64 = 0x4000;

const NEXT: u16 = 1;
const WRITE: u16 = 2;

/// A descriptor as it lies in memory.
fn descriptor(addr: u64, len: u32, flags: u16, next: u16) -> Vec<u8> {
    let mut bytes = addr.to_le_bytes().to_vec();
    bytes.extend(len.to_le_bytes());
    bytes.extend(flags.to_le_bytes());
    bytes.extend(next.to_le_bytes());
    bytes
}

/// The terminal: it takes what the console put out, and tells whether there was any.
fn show(board: &mut Board) -> Result<bool, Error> {
    let mut out = [0; 64];
    let mut any = false;
    loop {
        let taken = board.take_output(0, &mut out)?;
        if taken == 0 {
            return Ok(any);
        }
        print!("{}", String::from_utf8_lossy(&out[..taken]));
        any = true;
    }
}

/// A guest's driver: what a virtual CPU does in its place are loads and stores.
struct Driver<'board> {
    board: &'board mut Board,
    window: Window,
    queue: u32,
}

impl Driver<'_> {
    /// Where the window's queue lies: each window has 32 KiB of the memory.
    fn area(&self) -> u64 {
        MEMORY + 0x8000 * u64::from(self.window.number())
    }

    fn get(&mut self, offset: u16) -> Result<u32, Error> {
        self.board.read(0, self.window, offset, 4)
    }

    /// A store. Where its service pauses, it goes on at once: a host with more guests would first let them have their turn.
    fn try_to_set(&mut self, offset: u16, value: u32) -> Result<(), Error> {
        let mut pending = self.board.write(0, self.window, offset, 4, value)?;
        while pending.more {
            pending = self.board.go_on(0)?;
        }
        Ok(())
    }

    /// A store. Where the console has no room for what comes of it, room is made, and the same store is made again. What
    /// is longer than the whole outlet is never put out, which no other guest sees.
    fn set(&mut self, offset: u16, value: u32) -> Result<(), Error> {
        loop {
            match self.try_to_set(offset, value) {
                Err(Error::NoRoom(_)) if show(self.board)? => {}
                Err(Error::NoRoom(_)) => return Ok(()),
                answer => return answer,
            }
        }
    }

    fn store(&mut self, addr: u64, from: &[u8]) -> Result<(), Error> {
        self.board.write_memory(0, addr, from)
    }

    /// VERSION_1 alone is accepted, and a queue of four made ready.
    fn bring_up(&mut self) -> Result<(), Error> {
        let area = self.area() as u32;
        for (offset, value) in [
            (0x070, 0),
            (0x070, 1),
            (0x070, 3),
            (0x024, 1),
            (0x020, 1),
            (0x070, 11),
            (0x030, self.queue),
            (0x038, 4),
            (0x080, area + TABLE as u32),
            (0x090, area + AVAIL as u32),
            (0x0a0, area + USED as u32),
            (0x044, 1),
            (0x070, 15),
        ] {
            self.set(offset, value)?;
        }
        Ok(())
    }

    /// Puts one chain, whose head is descriptor 0, on offer.
    fn offer(&mut self, chain: &[u8]) -> Result<(), Error> {
        let area = self.area();
        self.store(area + TABLE, chain)?;
        self.store(area + AVAIL, &[0, 0, 1, 0, 0, 0])?;
        self.set(0x050, self.queue)
    }

    fn read_sector(&mut self, sector: u64) -> Result<(), Error> {
        let data = self.area() + DATA;
        let mut header = [0; 16];
        header[8..].copy_from_slice(&sector.to_le_bytes());
        self.store(data, &header)?;
        let mut chain = descriptor(data, 16, NEXT, 1);
        chain.extend(descriptor(data + 0x200, 512, NEXT | WRITE, 2));
        chain.extend(descriptor(data + 0x100, 1, WRITE, 0));
        self.offer(&chain)
    }
}

fn guest(board: &mut Board) -> Result<(), Error> {
    for window in [Window::Block, Window::Console] {
        let mut driver = Driver {
            board,
            window,
            queue: 0,
        };
        let (magic, device) = (driver.get(0x000)?, driver.get(0x008)?);
        println!(
            "window {}: magic {magic:08x}, device {device}",
            window.number()
        );
    }
    let mut disk = Driver {
        board,
        window: Window::Block,
        queue: 0,
    };
    disk.bring_up()?;
    disk.read_sector(1)?;
    let data = disk.area() + DATA;
    let (mut status, mut text) = ([0xff], [0; 512]);
    board.read_memory(0, data + 0x100, &mut status)?;
    println!("sector 1: status {}", status[0]);
    board.read_memory(0, data + 0x200, &mut text)?;
    let len = text
        .iter()
        .position(|&byte| byte == 0)
        .unwrap_or(text.len());

    let mut console = Driver {
        board,
        window: Window::Console,
        queue: 1,
    };
    console.bring_up()?;
    let data = console.area() + DATA;
    console.store(data, &text[..len])?;
    console.offer(&descriptor(data, len as u32, 0, 0))
}

fn main() -> Result<(), Box<dyn error::Error>> {
    let mut image = vec![0; 2 * 512];
    image[512..532].copy_from_slice(b"hello from sector 1\n");
    let slot = Slot::new(MEMORY, 0x1_0000, 0..2).with_identity("a disk of two".parse()?);
    let budget = Budget {
        chains: NonZeroU32::new(1),
        bytes: None,
    };
    let slots = [slot];
    let config = Config::new(&slots).with_image(&image).with_budget(budget);
    let mut board = Board::create(&config)?;
    thread::scope(|cpus| {
        cpus.spawn(|| guest(&mut board))
            .join()
            .expect("the guest's thread ends")
    })?;
    print!("console: ");
    show(&mut board)?;
    let lines = board.interrupts(0)?;
    let disturbed = u8::from(board.disturbed(0)?);
    println!(
        "interrupts: {} and {}, disturbed: {disturbed}",
        lines.block, lines.console
    );
    Ok(())
}
