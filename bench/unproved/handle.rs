//! Replaces machine_c's handle: a pointer to a machine, or null.
use crate::kept_machine::KeptMachine;
use crate::shim::*;

#[repr(C)]
pub struct Handle {
    at: Option<std::boxed::Box<KeptMachine>>,
}

impl Handle {
    pub fn take(&mut self, _: Global) -> Option<Box<KeptMachine>> {
        self.at.take().map(Box)
    }

    pub fn put(&mut self, machine: Box<KeptMachine>) {
        self.at = Some(machine.0);
    }
}
