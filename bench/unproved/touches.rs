//! Replaces vox_geom's counter of touches, which takes no bytes and makes no code.
use crate::counter_permit::CounterPermit;
use crate::shim::*;
use std::marker::PhantomData;

pub struct Steps<L: Ledger>(PhantomData<L>);

impl<L: Ledger> Steps<L> {
    pub fn new(_: Blank, _: CounterPermit) -> Steps<L> {
        Steps(PhantomData)
    }

    #[inline(always)]
    pub fn tick(&mut self) {}
}
