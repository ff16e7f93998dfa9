//! Stand-in for `crate::lines`, the adapter between a controller and the pins of a board: only the
//! names that ssd1677/lines.rs uses. Nothing here runs; the oracle calls the controller itself.

use std::marker::PhantomData;

use emu_core::{Cycles, Frequency, Level};

pub const ONE_GIGAHERTZ: Frequency = Frequency(1_000_000_000);
pub const MAX_LINE_FAULTS: usize = 0;

pub struct LineFault;
pub struct PanelInput<C>(PhantomData<C>);
pub struct PanelInputs<C>(PhantomData<C>);
pub struct PanelOutput<C>(PhantomData<C>);
pub struct PanelOutputs<C>(PhantomData<C>);
pub struct PanelLines<C>(C);

impl<C> PanelLines<C> {
    pub fn wrap(controller: C) -> PanelLines<C> {
        PanelLines(controller)
    }
}

pub trait PanelController {
    fn write_command(&mut self, now: Cycles, command: u8);
    fn write_data(&mut self, now: Cycles, data: u8);
    fn is_read_command(&self, command: u8) -> bool;
    fn read_data(&mut self, now: Cycles) -> Option<u8>;
    fn set_reset(&mut self, now: Cycles, asserted: bool);
    fn busy_level(&mut self, now: Cycles) -> Level;
    fn next_deadline(&self) -> Option<Cycles>;
    fn advance(&mut self, now: Cycles);
}
