//! What the five files find one module up: bindings (never called), the texture, command numbers of
//! src/cpu.rs, and the files themselves.

use std::marker::PhantomData;
use std::ops::{Deref, DerefMut};

/// A binding that is never made: the files' public functions need its methods to exist.
#[derive(Clone, Copy)]
pub struct CpuBinding<'a>(PhantomData<&'a ()>);

pub struct Guard<T: ?Sized>(Box<T>);

impl<T: ?Sized> Deref for Guard<T> {
    type Target = T;
    fn deref(&self) -> &T {
        &self.0
    }
}

impl<T: ?Sized> DerefMut for Guard<T> {
    fn deref_mut(&mut self) -> &mut T {
        &mut self.0
    }
}

impl CpuBinding<'_> {
    pub fn as_typed<T>(&self) -> Guard<T> {
        unreachable!()
    }
    pub fn as_typed_mut<T>(&self) -> Guard<T> {
        unreachable!()
    }
    pub fn as_slice<T>(&self) -> Guard<[T]> {
        unreachable!()
    }
    pub fn as_slice_mut<T>(&self) -> Guard<[T]> {
        unreachable!()
    }
}

pub struct CpuTexture {
    pub width: usize,
    pub height: usize,
    pub pixels: Vec<u32>,
}

pub const PTCL_INITIAL_ALLOC: u32 = 64;
pub const CMD_END: u32 = 0;
pub const CMD_FILL: u32 = 1;
pub const CMD_SOLID: u32 = 3;
pub const CMD_COLOR: u32 = 5;
pub const CMD_JUMP: u32 = 12;

include!(concat!(env!("OUT_DIR"), "/ported.rs"));
