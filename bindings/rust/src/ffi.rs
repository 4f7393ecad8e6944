//! The declarations of `kalyubos.h`, which says what each call does and what its caller must keep. `crates/c_values/api/make` makes
//! them of a table.

use crate::counters::Counters;
use crate::operation::Run;
use crate::slot::Region;
use std::ffi::c_void;

/// The version of this header, 0.3.0: 10000 for each major version, 100 for each minor one, and the patch.
pub const VERSION: u32 = 300;

/// What a call answers.
#[allow(dead_code)]
pub mod answers {
    pub const DONE: u32 = 0;
    pub const NO_BOARD: u32 = 1;
    pub const HAS_BOARD: u32 = 2;
    pub const BAD_SLOT: u32 = 3;
    pub const BAD_RANGE: u32 = 4;
    pub const NO_MEMORY: u32 = 5;
    pub const BAD_WINDOW: u32 = 6;
    pub const BAD_IMAGE: u32 = 7;
    pub const NO_SLOTS: u32 = 8;
    pub const TOO_MANY_SLOTS: u32 = 9;
    pub const BAD_MEMORY_SIZE: u32 = 10;
    pub const BAD_MEMORY_BASE: u32 = 11;
    pub const EXTENT_OUTSIDE: u32 = 12;
    pub const EXTENTS_OVERLAP: u32 = 13;
    pub const BAD_CACHE: u32 = 14;
    pub const NO_ROOM: u32 = 15;
    pub const BAD_OUTLET: u32 = 16;
    pub const BAD_SIZE: u32 = 17;
    pub const MORE: u32 = 18;
    pub const BUSY: u32 = 19;
    pub const IO: u32 = 20;
    pub const IDLE: u32 = 21;
    pub const NO_IMAGE: u32 = 22;
    pub const BAD_SNAPSHOT: u32 = 23;
    pub const OTHER_SLOT: u32 = 24;
    pub const BAD_STATE: u32 = 25;
    pub const SHORT_BUFFER: u32 = 26;
    pub const NO_REGIONS: u32 = 27;
    pub const REGIONS_NOT_APART: u32 = 28;
    pub const BAD_LOAN: u32 = 29;
    pub const BAD_DEPTH: u32 = 30;
    pub const OTHER_DEVICES: u32 = 31;
    pub const BAD_DEVICE: u32 = 32;
    pub const NOT_HOSTED: u32 = 33;
    pub const RUNS_ON: u32 = 34;
    pub const BAD_EXTENT: u32 = 35;
    pub const BAD_WAITING: u32 = 36;
}

/// A slot's windows, each of 4096 bytes.
#[allow(dead_code)]
pub mod windows {
    pub const BLOCK: u8 = 0;
    pub const CONSOLE: u8 = 1;
    pub const DEVICE: u8 = 2;
}

/// A board, or none.
#[derive(Debug)]
#[repr(C)]
pub struct Handle {
    at: *mut c_void,
}

impl Handle {
    pub const fn empty() -> Handle {
        Handle {
            at: std::ptr::null_mut(),
        }
    }
}

/// What waits once a call is answered.
#[derive(Default)]
#[repr(C)]
pub struct Pending {
    pub block: u32,
    pub console: u32,
    pub output: u64,
}

/// How many regions the memory of a guest has at most.
pub const REGIONS: usize = 8;

/// The kinds of further devices, by the standard's device IDs (5), but for the last.
#[allow(dead_code)]
pub mod device_kinds {
    pub const NO_DEVICE: u32 = 0;
    pub const NETWORK: u32 = 1;
    pub const DISK: u32 = 2;
    pub const CONSOLE_DEVICE: u32 = 3;
    pub const ENTROPY: u32 = 4;
    pub const IMAGE_DISK: u32 = 258;
}

/// How many further devices a slot has at most.
pub const DEVICES: usize = 6;

/// A further device of a slot, or none of kind 0.
#[derive(Clone, Copy, Default)]
#[repr(C)]
pub struct Device {
    pub kind: u32,
    pub mtu: u16,
    pub mac: [u8; 6],
    pub depth: u32,
    pub sectors: u64,
    pub start: u64,
    pub identity: [u8; 20],
    pub read_only: bool,
    pub cols: u16,
    pub rows: u16,
}

/// One guest.
#[repr(C)]
pub struct Slot {
    pub size: usize,
    pub regions: [Region; REGIONS],
    pub start: u64,
    pub count: u64,
    pub spare: u64,
    pub cols: u16,
    pub rows: u16,
    pub outlet: u32,
    pub read_only: bool,
    pub hosted: bool,
    pub runs: bool,
    pub identity: [u8; 20],
    pub depth: u32,
    pub devices: [Device; DEVICES],
}

/// What is wanted of a disk that the host serves.
#[allow(dead_code)]
pub mod operations {
    pub const IN: u32 = 0;
    pub const OUT: u32 = 1;
    pub const FLUSH: u32 = 2;
    pub const ZEROES: u32 = 3;
}

/// How many runs an operation has at most.
pub const RUNS: usize = 256;

/// One operation on a disk.
#[derive(Default)]
#[repr(C)]
pub struct Operation {
    pub kind: u32,
    pub runs: u32,
    pub start: u64,
    pub len: u64,
    pub stable: bool,
}

/// Bytes that the host lends.
#[repr(C)]
pub struct Loan {
    pub bytes: *mut u8,
    pub len: usize,
}

/// A board, as the host describes it.
#[repr(C)]
pub struct Config {
    pub size: usize,
    pub slots: *const Slot,
    pub slots_len: usize,
    pub loans: *mut Loan,
    pub loans_len: usize,
    pub image: *const u8,
    pub image_len: usize,
    pub cache: u32,
    pub chains: u32,
    pub bytes: u64,
}

/// What waits for a further device.
#[derive(Default)]
#[repr(C)]
pub struct DevicePending {
    pub interrupt: u32,
    pub starved: bool,
    pub padding: [u8; 3],
    pub frame: u64,
    pub tags: u64,
}

/// Why a window asks for a reset (DEVICE_NEEDS_RESET): what is wrong with what its driver wrote.
#[allow(dead_code)]
pub mod faults {
    pub const NO_FAULT: u32 = 0;
    pub const FAULT_JUMP: u32 = 1;
    pub const FAULT_INDEX: u32 = 2;
    pub const FAULT_LOOP: u32 = 3;
    pub const FAULT_TOO_MANY: u32 = 4;
    pub const FAULT_TABLE: u32 = 5;
    pub const FAULT_NESTED: u32 = 6;
    pub const FAULT_JOINED: u32 = 7;
    pub const FAULT_NO_INDIRECT: u32 = 8;
    pub const FAULT_RANGE: u32 = 9;
    pub const FAULT_TOO_LONG: u32 = 10;
}

/// What `head` is where no head was read.
pub const NO_HEAD: u32 = u32::MAX;

/// The last fault of a window.
#[derive(Default)]
#[repr(C)]
pub struct Fault {
    pub kind: u32,
    pub queue: u32,
    pub head: u32,
    pub place: u32,
}

/// A guest that runs on, or none.
#[derive(Debug)]
#[repr(C)]
pub struct GuestHandle {
    guest: *mut c_void,
}

impl GuestHandle {
    pub const fn empty() -> GuestHandle {
        GuestHandle {
            guest: std::ptr::null_mut(),
        }
    }
}

/// Words that the host lends.
#[repr(C)]
pub struct Words {
    pub words: *mut u64,
    pub len: usize,
}

/// A guest that runs on, as the host describes it.
#[repr(C)]
pub struct GuestConfig {
    pub size: usize,
    pub slot: *const Slot,
    pub words: *mut Words,
    pub words_len: usize,
    pub chains: u32,
    pub bytes: u64,
}

unsafe extern "C" {
    pub fn kalyubos_version() -> u32;
    pub fn kalyubos_create(board: *mut Handle, config: *mut Config) -> u32;
    pub fn kalyubos_judge(config: *const Config, slot: *mut usize, region: *mut usize) -> u32;
    pub fn kalyubos_destroy(board: *mut Handle) -> u32;
    pub fn kalyubos_read(
        board: *const Handle,
        slot: u8,
        window: u8,
        offset: u16,
        width: u8,
        value: *mut u32,
    ) -> u32;
    pub fn kalyubos_write(
        board: *mut Handle,
        slot: u8,
        window: u8,
        offset: u16,
        width: u8,
        value: u32,
        pending: *mut Pending,
    ) -> u32;
    pub fn kalyubos_go_on(board: *mut Handle, slot: u8, pending: *mut Pending) -> u32;
    pub fn kalyubos_in_flight(board: *const Handle, slot: u8, window: u8, tags: *mut u64) -> u32;
    pub fn kalyubos_operation(
        board: *const Handle,
        slot: u8,
        window: u8,
        tag: u8,
        operation: *mut Operation,
        runs: *mut Run,
        runs_len: usize,
    ) -> u32;
    pub fn kalyubos_completed(
        board: *mut Handle,
        slot: u8,
        window: u8,
        tag: u8,
        failed: bool,
        pending: *mut Pending,
    ) -> u32;
    pub fn kalyubos_drop(board: *mut Handle, slot: u8, window: u8, pending: *mut Pending) -> u32;
    pub fn kalyubos_hold(board: *mut Handle, slot: u8, window: u8, pending: *mut Pending) -> u32;
    pub fn kalyubos_release(board: *mut Handle, slot: u8, window: u8, pending: *mut Pending)
        -> u32;
    pub fn kalyubos_memory(
        board: *mut Handle,
        slot: u8,
        addr: u64,
        bytes: *mut *mut u8,
        len: *mut usize,
    ) -> u32;
    pub fn kalyubos_read_memory(
        board: *const Handle,
        slot: u8,
        addr: u64,
        into: *mut u8,
        into_len: usize,
    ) -> u32;
    pub fn kalyubos_write_memory(
        board: *mut Handle,
        slot: u8,
        addr: u64,
        from: *const u8,
        from_len: usize,
    ) -> u32;
    pub fn kalyubos_keep_pages(board: *mut Handle, slot: u8, bits: Loan) -> u32;
    pub fn kalyubos_input(
        board: *mut Handle,
        slot: u8,
        bytes: *const u8,
        bytes_len: usize,
        took: *mut usize,
        pending: *mut Pending,
    ) -> u32;
    pub fn kalyubos_resize(
        board: *mut Handle,
        slot: u8,
        cols: u16,
        rows: u16,
        pending: *mut Pending,
    ) -> u32;
    pub fn kalyubos_take_output(
        board: *mut Handle,
        slot: u8,
        into: *mut u8,
        into_len: usize,
        taken: *mut usize,
    ) -> u32;
    pub fn kalyubos_device_pending(
        board: *const Handle,
        slot: u8,
        window: u8,
        pending: *mut DevicePending,
    ) -> u32;
    pub fn kalyubos_supply(
        board: *mut Handle,
        slot: u8,
        window: u8,
        bytes: *const u8,
        bytes_len: usize,
        taken: *mut usize,
    ) -> u32;
    pub fn kalyubos_receive(
        board: *mut Handle,
        slot: u8,
        window: u8,
        frame: *const u8,
        frame_len: usize,
        taken: *mut bool,
    ) -> u32;
    pub fn kalyubos_take_frame(
        board: *mut Handle,
        slot: u8,
        window: u8,
        into: *mut u8,
        into_len: usize,
        len: *mut usize,
    ) -> u32;
    pub fn kalyubos_set_link(board: *mut Handle, slot: u8, window: u8, up: bool) -> u32;
    pub fn kalyubos_resize_device(
        board: *mut Handle,
        slot: u8,
        window: u8,
        cols: u16,
        rows: u16,
    ) -> u32;
    pub fn kalyubos_interrupts(
        board: *const Handle,
        slot: u8,
        block: *mut u8,
        console: *mut u8,
    ) -> u32;
    pub fn kalyubos_lines(board: *const Handle, slot: u8, lines: *mut u32) -> u32;
    pub fn kalyubos_disturbed(board: *const Handle, slot: u8, disturbed: *mut bool) -> u32;
    pub fn kalyubos_counters(board: *const Handle, slot: u8, counters: *mut Counters) -> u32;
    pub fn kalyubos_last_fault(
        board: *const Handle,
        slot: u8,
        window: u8,
        fault: *mut Fault,
    ) -> u32;
    pub fn kalyubos_saved_len(board: *const Handle, slot: u8, len: *mut usize) -> u32;
    pub fn kalyubos_save(
        board: *const Handle,
        slot: u8,
        into: *mut u8,
        into_len: usize,
        written: *mut usize,
    ) -> u32;
    pub fn kalyubos_restore(
        board: *mut Handle,
        slot: u8,
        from: *const u8,
        from_len: usize,
        pending: *mut Pending,
    ) -> u32;
    pub fn kalyubos_image(board: *const Handle, bytes: *mut *const u8, len: *mut usize) -> u32;
    pub fn kalyubos_image_len(board: *const Handle, len: *mut usize) -> u32;
    pub fn kalyubos_read_image(
        board: *const Handle,
        start: usize,
        into: *mut u8,
        into_len: usize,
    ) -> u32;
    pub fn kalyubos_guest_create(guest: *mut GuestHandle, config: *mut GuestConfig) -> u32;
    pub fn kalyubos_guest_destroy(guest: *mut GuestHandle) -> u32;
    pub fn kalyubos_guest_read(
        guest: *const GuestHandle,
        window: u8,
        offset: u16,
        width: u8,
        value: *mut u32,
    ) -> u32;
    pub fn kalyubos_guest_write(
        guest: *mut GuestHandle,
        window: u8,
        offset: u16,
        width: u8,
        value: u32,
        pending: *mut Pending,
    ) -> u32;
    pub fn kalyubos_guest_go_on(guest: *mut GuestHandle, pending: *mut Pending) -> u32;
    pub fn kalyubos_guest_input(
        guest: *mut GuestHandle,
        bytes: *const u8,
        bytes_len: usize,
        took: *mut usize,
        pending: *mut Pending,
    ) -> u32;
    pub fn kalyubos_guest_resize(
        guest: *mut GuestHandle,
        cols: u16,
        rows: u16,
        pending: *mut Pending,
    ) -> u32;
    pub fn kalyubos_guest_take_output(
        guest: *mut GuestHandle,
        into: *mut u8,
        into_len: usize,
        taken: *mut usize,
    ) -> u32;
    pub fn kalyubos_guest_device_pending(
        guest: *const GuestHandle,
        window: u8,
        pending: *mut DevicePending,
    ) -> u32;
    pub fn kalyubos_guest_supply(
        guest: *mut GuestHandle,
        window: u8,
        bytes: *const u8,
        bytes_len: usize,
        taken: *mut usize,
    ) -> u32;
    pub fn kalyubos_guest_receive(
        guest: *mut GuestHandle,
        window: u8,
        frame: *const u8,
        frame_len: usize,
        taken: *mut bool,
    ) -> u32;
    pub fn kalyubos_guest_take_frame(
        guest: *mut GuestHandle,
        window: u8,
        into: *mut u8,
        into_len: usize,
        len: *mut usize,
    ) -> u32;
    pub fn kalyubos_guest_set_link(guest: *mut GuestHandle, window: u8, up: bool) -> u32;
    pub fn kalyubos_guest_resize_device(
        guest: *mut GuestHandle,
        window: u8,
        cols: u16,
        rows: u16,
    ) -> u32;
    pub fn kalyubos_guest_in_flight(guest: *const GuestHandle, tags: *mut u64) -> u32;
    pub fn kalyubos_guest_operation(
        guest: *const GuestHandle,
        tag: u8,
        operation: *mut Operation,
        runs: *mut Run,
        runs_len: usize,
    ) -> u32;
    pub fn kalyubos_guest_completed(
        guest: *mut GuestHandle,
        tag: u8,
        failed: bool,
        pending: *mut Pending,
    ) -> u32;
    pub fn kalyubos_guest_drop(guest: *mut GuestHandle, pending: *mut Pending) -> u32;
    pub fn kalyubos_guest_hold(guest: *mut GuestHandle, pending: *mut Pending) -> u32;
    pub fn kalyubos_guest_release(guest: *mut GuestHandle, pending: *mut Pending) -> u32;
    pub fn kalyubos_guest_place(
        guest: *const GuestHandle,
        window: u8,
        queue: u16,
        place: *mut u16,
    ) -> u32;
    pub fn kalyubos_guest_set_place(
        guest: *mut GuestHandle,
        window: u8,
        queue: u16,
        place: u16,
    ) -> u32;
    pub fn kalyubos_guest_set_memory(
        guest: *mut GuestHandle,
        regions: *const Region,
        regions_len: usize,
        words: *mut Words,
        words_len: usize,
    ) -> u32;
    pub fn kalyubos_guest_keep_pages(guest: *mut GuestHandle, bits: Loan) -> u32;
    pub fn kalyubos_guest_interrupts(
        guest: *const GuestHandle,
        block: *mut u8,
        console: *mut u8,
    ) -> u32;
    pub fn kalyubos_guest_last_fault(
        guest: *const GuestHandle,
        window: u8,
        fault: *mut Fault,
    ) -> u32;
}
