//! The host of `disk.c`, in Rust with std alone: real disks for two guests over two files, and the same lines. Each guest has
//! a board of its own and a thread of its own, which is its CPU and makes its calls; its disk is a few threads that know the
//! file and no guest, one for each operation that may be in flight. Guests share nothing, and need no lock.

use kalyubos::{Board, Config, Kind, Operation, Outcome, Pending, Slot, Tags, Window};
use std::error::Error;
use std::fs::{self, File};
use std::io;
use std::os::unix::fs::FileExt;
use std::path::PathBuf;
use std::sync::mpsc::{channel, Receiver, Sender};
use std::sync::{Arc, Barrier, Mutex};
use std::thread;

type Result<T> = std::result::Result<T, Box<dyn Error + Send + Sync>>;

const MEMORY: u64 = 0x8000_0000;
const MEMORY_LEN: u64 = 0x40_0000;
const DISK_LEN: u64 = 0x40_0000;
const SECTOR_LEN: usize = 512;
const DEPTH: u32 = 4;

// ---- the disk

/// What is asked of a file, with the bytes that go to it, or with room for those that come.
struct Order {
    tag: u8,
    asked: Operation,
    bytes: Vec<u8>,
}

impl Order {
    fn perform(&mut self, file: &File) -> io::Result<()> {
        let asked = &self.asked;
        match asked.kind {
            Kind::In => file.read_exact_at(&mut self.bytes, asked.start)?,
            Kind::Out => file.write_all_at(&self.bytes, asked.start)?,
            Kind::Flush => {}
            Kind::Zeroes => {
                for run in &asked.runs {
                    file.write_all_at(&vec![0; run.len as usize], run.at)?;
                }
            }
        }
        if asked.stable || asked.kind == Kind::Flush {
            file.sync_data()?;
        }
        Ok(())
    }
}

/// A thread of a disk's: performs orders as long as there are some, and sends each back with what came of it.
fn serve(file: &File, orders: &Mutex<Receiver<Order>>, ends: &Sender<(Order, Outcome)>) {
    loop {
        let order = orders.lock().expect("no thread panics").recv();
        let Ok(mut order) = order else {
            return;
        };
        let outcome = match order.perform(file) {
            Ok(()) => Outcome::Done,
            Err(_) => Outcome::Failed,
        };
        if ends.send((order, outcome)).is_err() {
            return;
        }
    }
}

// ---- a guest, and the host's side of it

struct Guest {
    number: usize,
    board: Board,
    path: PathBuf,
    orders: Sender<Order>,
    ends: Receiver<(Order, Outcome)>,
    /// The tags of the orders that are out.
    begun: Tags,
    /// The word of the block window's line, as the last call left it.
    line: u32,
    offered: u16,
}

impl Guest {
    fn power_on(number: usize) -> Result<Guest> {
        let path =
            std::env::temp_dir().join(format!("kalyubos-disk-{}-{number}", std::process::id()));
        fs::write(&path, vec![b'a' + number as u8; DISK_LEN as usize])?;
        let file = File::options().read(true).write(true).open(&path)?;
        let slot = Slot::hosted(MEMORY, MEMORY_LEN, DISK_LEN / SECTOR_LEN as u64).with_depth(DEPTH);
        let (orders, taken) = channel();
        let (sent, ends) = channel();
        let shared = Arc::new((file, Mutex::new(taken)));
        for _ in 0..DEPTH {
            let (shared, sent) = (Arc::clone(&shared), sent.clone());
            thread::spawn(move || serve(&shared.0, &shared.1, &sent));
        }
        Ok(Guest {
            number,
            board: Board::create(&Config::new(&[slot]))?,
            path,
            orders,
            ends,
            begun: Tags::default(),
            line: 0,
            offered: 0,
        })
    }

    /// What a call came to: the line, and what the disk is asked for from now on.
    fn take_in(&mut self, pending: Pending) -> Result<()> {
        self.line = pending.interrupts.block;
        if pending.io {
            self.begin()?;
        }
        Ok(())
    }

    /// Hands what began to the disk, with the bytes of an OUT.
    fn begin(&mut self) -> Result<()> {
        for tag in self.board.in_flight(0, Window::Block)?.without(self.begun) {
            let Some(asked) = self.board.operation(0, Window::Block, tag)? else {
                continue;
            };
            let mut bytes = vec![0; asked.len as usize];
            if asked.kind == Kind::Out {
                let mut rest = &mut bytes[..];
                for run in &asked.runs {
                    let (part, behind) = rest.split_at_mut(run.len as usize);
                    self.board.read_memory(0, run.at, part)?;
                    rest = behind;
                }
            }
            self.begun.insert(tag);
            self.orders.send(Order { tag, asked, bytes })?;
        }
        Ok(())
    }

    /// Waits for the disk, and completes what it did, with the bytes of an IN.
    fn wait_for_disk(&mut self) -> Result<()> {
        let (order, outcome) = self.ends.recv()?;
        if order.asked.kind == Kind::In && outcome == Outcome::Done {
            let mut rest = &order.bytes[..];
            for run in &order.asked.runs {
                let (part, behind) = rest.split_at(run.len as usize);
                self.board.write_memory(0, run.at, part)?;
                rest = behind;
            }
        }
        // within a budget it may be busy: then the order is kept, and completed behind the pause
        let pending = self.board.complete(0, Window::Block, order.tag, outcome)?;
        self.begun.remove(order.tag);
        self.take_in(pending)
    }

    /// Gives up all that the disk is asked for, behind the end of its transfers.
    fn give_up(&mut self) -> Result<()> {
        while !self.begun.is_empty() {
            let (order, _) = self.ends.recv()?;
            self.begun.remove(order.tag);
        }
        let pending = self.board.drop_operations(0, Window::Block)?;
        self.take_in(pending)
    }

    /// A store. One that resets the device, or its queue, waits for all that is in flight.
    fn store(&mut self, window: Window, offset: u16, value: u32) -> Result<()> {
        loop {
            match self.board.write(0, window, offset, 4, value) {
                Err(kalyubos::Error::Busy) => self.wait_for_disk()?,
                pending => return self.take_in(pending?),
            }
        }
    }

    // ---- the guest's driver (VIRTIO 1.2, 2.7 and 5.2.6)

    fn bring_up(&mut self, features: u32) -> Result<()> {
        let at = MEMORY as u32;
        let queue = [
            (0x38, PLACES as u32),
            (0x80, at + TABLE as u32),
            (0x90, at + AVAIL as u32),
            (0xa0, at + USED as u32),
        ];
        let before = [
            (0x70, 1),
            (0x70, 3),
            (0x24, 0),
            (0x20, features),
            (0x24, 1),
            (0x20, 1),
            (0x70, 11),
        ];
        for (offset, value) in before
            .into_iter()
            .chain(queue)
            .chain([(0x44, 1), (0x70, 15)])
        {
            self.store(Window::Block, offset, value)?;
        }
        Ok(())
    }

    /// Offers a request whose data, if it has any, lies at an offset of the memory, and notifies.
    fn ask(&mut self, what: u32, sector: u64, data: usize, len: u32) -> Result<()> {
        let (number, place) = (
            usize::from(self.offered) % REQUESTS,
            usize::from(self.offered) % PLACES,
        );
        let (at, head) = (number * HEADER_LEN, (number * CHAIN_LEN) as u16);
        let writes = if what == IN { WRITE } else { 0 };
        let table = [
            descriptor(HEADER + at, 16, NEXT, head + if len == 0 { 2 } else { 1 }),
            descriptor(data, len, NEXT | writes, head + 2),
            descriptor(STATUS + at, 1, WRITE, 0),
        ];
        self.offered += 1;
        let memory = self.board.memory(0, MEMORY)?;
        memory[HEADER + at..][..8].copy_from_slice(&u64::from(what).to_le_bytes());
        memory[HEADER + at + 8..][..8].copy_from_slice(&sector.to_le_bytes());
        memory[TABLE + 16 * usize::from(head)..][..48].copy_from_slice(&table.concat());
        memory[AVAIL + 4 + 2 * place..][..2].copy_from_slice(&head.to_le_bytes());
        memory[AVAIL + 2..AVAIL + 4].copy_from_slice(&self.offered.to_le_bytes());
        memory[STATUS + at] = 0xff;
        self.store(Window::Block, 0x50, 0)
    }

    /// Asks for parts of a row of sectors by as many requests as fit.
    fn ask_in_parts(&mut self, what: u32, sector: u64, data: usize, len: usize) -> Result<()> {
        let part = len / REQUESTS;
        for number in 0..REQUESTS {
            let first = sector + (number * part / SECTOR_LEN) as u64;
            self.ask(what, first, data + number * part, part as u32)?;
        }
        Ok(())
    }

    /// Waits for the interrupts of all requests, acknowledges them, and looks at each status.
    fn wait(&mut self) -> Result<()> {
        loop {
            while self.line == 0 {
                self.wait_for_disk()?;
            }
            self.store(Window::Block, 0x64, self.line)?;
            let offered = self.offered.to_le_bytes();
            if self.board.memory(0, MEMORY)?[USED + 2..USED + 4] == offered {
                break;
            }
        }
        for number in 0..REQUESTS {
            match self.board.memory(0, MEMORY)?[STATUS + number * HEADER_LEN] {
                0 => {}
                status => return Err(format!("a request has status {status}").into()),
            }
        }
        Ok(())
    }

    fn transfer(&mut self, what: u32, sector: u64, data: usize, len: u32) -> Result<()> {
        self.ask(what, sector, data, len)?;
        self.wait()
    }

    /// Guest 0: its requests are in flight while it uses its console, and while guest 1 uses its disk. It knows no flush.
    fn runs_on(&mut self, both: &Barrier) -> Result<()> {
        let len = 0x20_0000;
        self.bring_up(0)?;
        self.ask_in_parts(IN, 0, DATA, len)?;
        for letter in *b"busy" {
            self.store(Window::Console, 0x108, letter.into())?;
        }
        let device = self.board.read(0, Window::Block, 0x008, 4)?;
        let status = self.board.memory(0, MEMORY)?[STATUS];
        println!(
            "guest 0 runs on: device {device}, line {}, status {status:02x}",
            self.line
        );
        both.wait(); // guest 1 begins,
        both.wait(); // and has ended
        self.wait()?;
        let data = &mut self.board.memory(0, MEMORY)?[DATA..DATA + len];
        let alike = data.iter().all(|byte| *byte == data[0]);
        println!(
            "guest 0 reads {:02x}, {}",
            data[0],
            if alike { "in every byte" } else { "and others" }
        );
        data[..SECTOR_LEN].fill(b'A');
        self.ask(OUT, 1, DATA, SECTOR_LEN as u32)?;
        self.store(Window::Block, 0x70, 0)?; // a reset, behind the write's end
        println!("guest 0 has reset its disk");
        Ok(())
    }

    /// The driver finds that its device asks for a reset, and forgets what it offered.
    fn reset(&mut self, features: u32) -> Result<()> {
        let status = self.board.read(0, Window::Block, 0x70, 4)?;
        println!(
            "guest {} resets its disk: line {}, status {status:02x}",
            self.number, self.line
        );
        self.store(Window::Block, 0x70, 0)?;
        self.board.memory(0, MEMORY)?[..ZEROED].fill(0);
        self.offered = 0;
        self.bring_up(features)
    }

    /// Guest 1: writes by four requests at once; zeroes, flushes and reads, each to its end. Of four reads the host gives up,
    /// and behind a reset one is done.
    fn works(&mut self, both: &Barrier) -> Result<()> {
        let features = 1 << 9 | 1 << 14; // FLUSH, WRITE_ZEROES
        both.wait();
        self.bring_up(features)?;
        let memory = self.board.memory(0, MEMORY)?;
        memory[DATA..DATA + 8 * SECTOR_LEN].fill(b'B');
        memory[ZEROED..ZEROED + 8].copy_from_slice(&3u64.to_le_bytes());
        memory[ZEROED + 8..ZEROED + 16].copy_from_slice(&2u64.to_le_bytes());
        self.ask_in_parts(OUT, 0, DATA, 8 * SECTOR_LEN)?;
        self.wait()?;
        self.transfer(WRITE_ZEROES, 0, ZEROED, 16)?;
        self.transfer(FLUSH, 0, 0, 0)?;
        self.transfer(IN, 2, DATA, 4 * SECTOR_LEN as u32)?;
        let memory = self.board.memory(0, MEMORY)?;
        for place in 0..4 {
            println!(
                "guest 1 finds {:02x} in sector {}",
                memory[DATA + place * SECTOR_LEN],
                2 + place
            );
        }
        self.ask_in_parts(IN, 0, DATA, 0x20_0000)?;
        self.give_up()?;
        self.reset(features)?;
        self.transfer(IN, 6, DATA, SECTOR_LEN as u32)?;
        let found = self.board.memory(0, MEMORY)?[DATA];
        println!("guest 1 finds {found:02x} in sector 6");
        both.wait();
        Ok(())
    }

    fn power_off(mut self) -> Result<()> {
        let mut said = [0; 64];
        let taken = self.board.take_output(0, &mut said)?;
        print!(
            "guest {} said \"{}\"; its file:",
            self.number,
            String::from_utf8_lossy(&said[..taken])
        );
        let file = fs::read(&self.path)?;
        for sector in 0..6 {
            print!(" {:02x}", file[sector * SECTOR_LEN]);
        }
        println!();
        Ok(fs::remove_file(&self.path)?)
    }
}

const HEADER: usize = 0;
const STATUS: usize = 0x10;
const TABLE: usize = 0x100;
const AVAIL: usize = 0x200;
const USED: usize = 0x300;
const ZEROED: usize = 0x400;
const DATA: usize = 0x10_0000;

/// The places of the queue, and the requests that may be on offer: each has a header, a status and a chain of its own.
const PLACES: usize = 16;
const REQUESTS: usize = 4;
const HEADER_LEN: usize = 0x20;
const CHAIN_LEN: usize = 3;

const IN: u32 = 0;
const OUT: u32 = 1;
const FLUSH: u32 = 4;
const WRITE_ZEROES: u32 = 13;

const NEXT: u16 = 1;
const WRITE: u16 = 2;

/// A descriptor as it lies in memory.
fn descriptor(at: usize, len: u32, flags: u16, next: u16) -> [u8; 16] {
    let mut bytes = [0; 16];
    bytes[..8].copy_from_slice(&(MEMORY + at as u64).to_le_bytes());
    bytes[8..12].copy_from_slice(&len.to_le_bytes());
    bytes[12..14].copy_from_slice(&flags.to_le_bytes());
    bytes[14..].copy_from_slice(&next.to_le_bytes());
    bytes
}

/// A CPU's thread, to the guest's end. What goes wrong ends the process, since the other guest may wait.
fn run(mut guest: Guest, both: &Barrier) -> Guest {
    let ended = match guest.number {
        0 => guest.runs_on(both),
        _ => guest.works(both),
    };
    if let Err(why) = ended {
        eprintln!("disk: guest {}: {why}", guest.number);
        std::process::exit(1);
    }
    guest
}

fn main() -> Result<()> {
    let guests = [Guest::power_on(0)?, Guest::power_on(1)?];
    let both = Barrier::new(guests.len());
    let ended = thread::scope(|cpus| {
        guests
            .map(|guest| cpus.spawn(|| run(guest, &both)))
            .map(|cpu| cpu.join().expect("a CPU's thread ends"))
    });
    ended.into_iter().try_for_each(Guest::power_off)
}
