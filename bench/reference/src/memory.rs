//! Flat memory and write protection around another memory.

use crate::fault::{Fault, Refusal};

pub trait Memory {
    fn read(&self, address: u32) -> Result<u8, Fault>;

    /// Whether a write would be allowed; changes nothing.
    fn check_write(&self, address: u32) -> Result<(), Fault>;

    fn write(&mut self, address: u32, byte: u8) -> Result<(), Fault>;
}

pub struct FlatMemory {
    bytes: Vec<u8>,
}

impl FlatMemory {
    pub fn new(length: usize) -> FlatMemory {
        FlatMemory { bytes: vec![0; length] }
    }
}

impl Memory for FlatMemory {
    fn read(&self, address: u32) -> Result<u8, Fault> {
        self.bytes.get(address as usize).copied().ok_or(Fault::of_memory(Refusal::NoMemory, address))
    }

    fn check_write(&self, address: u32) -> Result<(), Fault> {
        self.read(address).map(|_| ())
    }

    fn write(&mut self, address: u32, byte: u8) -> Result<(), Fault> {
        let cell = self.bytes.get_mut(address as usize).ok_or(Fault::of_memory(Refusal::NoMemory, address))?;
        *cell = byte;
        Ok(())
    }
}

/// Forbids writes from `low` up to, not including, `high`.
pub struct Protected<M> {
    inner: M,
    low: u32,
    high: u32,
}

impl<M: Memory> Protected<M> {
    pub fn new(inner: M, low: u32, high: u32) -> Protected<M> {
        Protected { inner, low, high }
    }

    fn guard(&self, address: u32) -> Result<(), Fault> {
        if (self.low..self.high).contains(&address) {
            return Err(Fault::of_memory(Refusal::WriteProtected, address));
        }
        Ok(())
    }
}

impl<M: Memory> Memory for Protected<M> {
    fn read(&self, address: u32) -> Result<u8, Fault> {
        self.inner.read(address).map_err(Fault::one_layer_down)
    }

    fn check_write(&self, address: u32) -> Result<(), Fault> {
        self.guard(address)?;
        self.inner.check_write(address).map_err(Fault::one_layer_down)
    }

    fn write(&mut self, address: u32, byte: u8) -> Result<(), Fault> {
        self.guard(address)?;
        self.inner.write(address, byte).map_err(Fault::one_layer_down)
    }
}
