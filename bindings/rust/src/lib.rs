#![doc = include_str!("../README.md")]
#![warn(missing_docs)]

mod board;
mod config;
mod counters;
mod device;
mod disk;
mod error;
mod fault;
mod ffi;
mod identity;
mod lines;
mod operation;
mod pages;
mod running;
mod saved;
mod shared;
mod slot;
mod tags;

pub use board::{Board, Budget, Interrupts, Pending, Window};
pub use config::Config;
pub use counters::Counters;
pub use device::{Device, DevicePending, Handed};
pub use error::{CreateError, Error, Fault, MemoryError, RestoreError};
pub use fault::{DriverFault, FaultKind};
pub use identity::{Identity, IdentityTooLong};
pub use lines::Lines;
pub use operation::{Kind, Operation, Outcome, Run, Runs};
pub use running::{GuestConfig, RunningGuest};
pub use shared::SharedMemory;
pub use slot::{Region, Slot};
pub use tags::Tags;
