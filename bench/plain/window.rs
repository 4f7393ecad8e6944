//! The registers of a window, and its device's status and features.
use crate::device::Device;
use crate::memory::Memory;
use crate::queue::{self, Chain, Queue};

const MAGIC_VALUE: u16 = 0x000;
const VERSION: u16 = 0x004;
const DEVICE_ID: u16 = 0x008;
const VENDOR_ID: u16 = 0x00c;
const DEVICE_FEATURES: u16 = 0x010;
const DEVICE_FEATURES_SEL: u16 = 0x014;
const DRIVER_FEATURES: u16 = 0x020;
const DRIVER_FEATURES_SEL: u16 = 0x024;
const QUEUE_SEL: u16 = 0x030;
const QUEUE_NUM_MAX: u16 = 0x034;
const QUEUE_NUM: u16 = 0x038;
const QUEUE_READY: u16 = 0x044;
pub const QUEUE_NOTIFY: u16 = 0x050;
const INTERRUPT_STATUS: u16 = 0x060;
const INTERRUPT_ACK: u16 = 0x064;
const STATUS: u16 = 0x070;
/// The low half of a queue's first area; its high half stands 4 further, the next area 16.
const QUEUE_DESC_LOW: u16 = 0x080;
const QUEUE_DEVICE_HIGH: u16 = 0x0a4;
const SHM_LEN_LOW: u16 = 0x0b0;
const SHM_BASE_HIGH: u16 = 0x0bc;
const CONFIG_GENERATION: u16 = 0x0fc;

pub const INDIRECT_DESC: u64 = 1 << 28;
pub const EVENT_IDX: u64 = 1 << 29;
const VERSION_1: u64 = 1 << 32;
pub const RING_PACKED: u64 = 1 << 34;
const NOTIFICATION_DATA: u64 = 1 << 38;
const EVERY: u64 = INDIRECT_DESC | EVENT_IDX | VERSION_1 | RING_PACKED | NOTIFICATION_DATA;
/// SEG_MAX, BLK_SIZE, FLUSH and WRITE_ZEROES.
pub const OF_BLOCK: u64 = 1 << 2 | 1 << 6 | 1 << 9 | 1 << 14;
pub const RO: u64 = 1 << 5;
/// SIZE and EMERG_WRITE.
pub const OF_CONSOLE: u64 = 1 << 0 | 1 << 2;

const DRIVER_OK: u32 = 4;
const FEATURES_OK: u32 = 8;
const NEEDS_RESET: u32 = 64;
const FAILED: u32 = 128;
/// The bits that a driver may set: ACKNOWLEDGE and DRIVER too.
const WRITABLE: u32 = 0x8f;

const USED_BUFFER: u32 = 1;
const CONFIGURATION: u32 = 2;

pub const BLOCK: u32 = 2;
pub const CONSOLE: u32 = 3;

#[derive(Default)]
pub struct Window {
    id: u32,
    offered: u64,
    generation: u32,
    status: u32,
    driver_features: u64,
    device_features_sel: u32,
    driver_features_sel: u32,
    queue_sel: u32,
    interrupts: u32,
    queues: Vec<Queue>,
}

impl Window {
    /// A window of the device of this id, which offers these features and has so many queues.
    pub fn new(id: u32, features: u64, queues: usize) -> Window {
        let queues = (0..queues).map(|_| Queue::default()).collect();
        Window { id, offered: EVERY | features, queues, ..Window::default() }
    }

    pub fn interrupts(&self) -> u32 {
        self.interrupts
    }

    pub fn read(&self, offset: u16) -> u32 {
        let queue = self.queues.get(self.queue_sel as usize);
        match offset {
            MAGIC_VALUE => u32::from_le_bytes(*b"virt"),
            VERSION => 2,
            DEVICE_ID => self.id,
            VENDOR_ID => u32::from_le_bytes(*b"VMBO"),
            DEVICE_FEATURES => match self.device_features_sel {
                0 => self.offered as u32,
                1 => (self.offered >> 32) as u32,
                _ => 0,
            },
            QUEUE_NUM_MAX => queue.map_or(0, |_| queue::MOST),
            QUEUE_READY => queue.is_some_and(Queue::is_ready).into(),
            INTERRUPT_STATUS => self.interrupts,
            STATUS => self.status,
            SHM_LEN_LOW..=SHM_BASE_HIGH => u32::MAX,
            CONFIG_GENERATION => self.generation,
            _ => 0,
        }
    }

    /// Writes a register, but for QueueNotify.
    pub fn write(&mut self, offset: u16, value: u32, memory: &Memory) {
        match offset {
            DEVICE_FEATURES_SEL => self.device_features_sel = value,
            DRIVER_FEATURES => self.write_driver_features(value),
            DRIVER_FEATURES_SEL => self.driver_features_sel = value,
            QUEUE_SEL => self.queue_sel = value,
            INTERRUPT_ACK => self.interrupts &= !value,
            STATUS => self.write_status(value),
            _ => self.write_queue(offset, value, memory),
        }
    }

    fn write_driver_features(&mut self, word: u32) {
        let (old, word) = (self.driver_features, u64::from(word));
        match self.driver_features_sel {
            _ if self.status & FEATURES_OK != 0 => {}
            0 => self.driver_features = old >> 32 << 32 | word,
            1 => self.driver_features = word << 32 | u64::from(old as u32),
            _ => {}
        }
    }

    fn write_status(&mut self, value: u32) {
        if value == 0 {
            let Window { id, offered, generation, .. } = *self;
            *self = Window { generation, ..Window::new(id, offered, self.queues.len()) };
            return;
        }
        let is_acceptable = self.driver_features & !self.offered == 0 && self.driver_features & VERSION_1 != 0;
        let refused = if is_acceptable { 0 } else { FEATURES_OK };
        self.status |= value & WRITABLE & !refused;
    }

    fn write_queue(&mut self, offset: u16, value: u32, memory: &Memory) {
        let features = self.negotiated();
        let Some(queue) = self.queues.get_mut(self.queue_sel as usize) else {
            return;
        };
        match (offset, value) {
            (QUEUE_NUM, _) => queue.set_number(value),
            (QUEUE_READY, 0) => queue.stop(),
            (QUEUE_READY, 1) if self.status & FEATURES_OK != 0 => queue.start(features, memory),
            (QUEUE_DESC_LOW..=QUEUE_DEVICE_HIGH, _) if offset & 0xb == 0 => {
                queue.set_area(usize::from(offset - QUEUE_DESC_LOW) / 16, offset & 4 != 0, value);
            }
            _ => {}
        }
    }

    /// The features that are negotiated.
    fn negotiated(&self) -> u64 {
        if self.status & FEATURES_OK != 0 {
            self.driver_features
        } else {
            0
        }
    }

    fn is_live(&self) -> bool {
        self.status & (DRIVER_OK | FEATURES_OK | FAILED | NEEDS_RESET) == DRIVER_OK | FEATURES_OK
    }

    /// The queue that a write to QueueNotify names.
    pub fn notified(&self, value: u32) -> u32 {
        if self.negotiated() & NOTIFICATION_DATA != 0 {
            value & 0xffff
        } else {
            value
        }
    }

    /// Has a device serve a queue, where the window is live and the queue ready.
    pub fn serve(&mut self, index: usize, device: &mut impl Device, chain: &mut Chain, memory: &mut Memory) {
        if !self.is_live() {
            return;
        }
        let Some(served) = self.queues[index].serve(device, chain, memory) else {
            return;
        };
        if served.notify {
            self.interrupts |= USED_BUFFER;
        }
        if served.is_faulty {
            self.interrupts |= CONFIGURATION;
            self.status |= NEEDS_RESET;
        }
    }

    /// Tells the driver that the configuration changed.
    pub fn reconfigured(&mut self) {
        self.generation = self.generation.wrapping_add(1);
        if self.status & DRIVER_OK != 0 {
            self.interrupts |= CONFIGURATION;
        }
    }
}
