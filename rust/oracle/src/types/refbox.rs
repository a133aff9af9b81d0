//! Stand-in for upstream's refbox.rs (not at hand): places of frames in one arena.
//! A frame does not store its address (document 01's box header has no such field),
//! so the two handles that need it carry it along.

use std::slice::{from_raw_parts, from_raw_parts_mut};

use crate::types::{
    header::{BaseHeader, BoxHeader, DeltaHeader, RemoteHeader},
    traits::{IBoxHeader, IHeader},
};

/// A frame and its address. Upstream counts references; here frames live as long as the arena.
#[derive(Clone)]
pub(crate) struct BoxRef {
    ptr: *mut BoxHeader,
    addr: u64,
}

impl BoxRef {
    pub(crate) fn new(ptr: *mut BoxHeader, addr: u64) -> Self {
        Self { ptr, addr }
    }

    pub(crate) fn addr(&self) -> u64 {
        self.addr
    }

    pub(crate) fn view(&self) -> BoxView {
        BoxView(self.clone())
    }
}

pub(crate) struct BoxView(BoxRef);

impl BoxView {
    pub(crate) fn as_base(&self) -> BaseView {
        BaseView(self.payload().cast())
    }

    pub(crate) fn as_delta(&self) -> DeltaView {
        DeltaView(self.payload().cast())
    }

    pub(crate) fn as_remote(&self) -> RemoteView {
        RemoteView { ptr: self.payload().cast(), addr: self.0.addr }
    }

    fn payload(&self) -> *mut BoxHeader {
        // SAFETY: a frame has its payload right behind the box header.
        unsafe { self.0.ptr.add(1) }
    }
}

#[derive(Clone, Copy)]
pub(crate) struct BaseView(pub(crate) *mut BaseHeader);

#[derive(Clone, Copy)]
pub(crate) struct DeltaView(pub(crate) *mut DeltaHeader);

#[derive(Clone, Copy)]
pub(crate) struct RemoteView {
    ptr: *mut RemoteHeader,
    addr: u64,
}

impl RemoteView {
    pub(crate) fn addr(&self) -> u64 {
        self.addr
    }

    pub(crate) fn raw<'a>(&self) -> &'a [u8] {
        // SAFETY: a remote frame's payload is 8 + size.
        unsafe { from_raw_parts(self.ptr.add(1).cast(), self.header().size) }
    }

    pub(crate) fn raw_mut(&mut self) -> &mut [u8] {
        // SAFETY: as above; the frame was just allocated and nobody else reads it.
        unsafe { from_raw_parts_mut(self.ptr.add(1).cast(), self.header().size) }
    }
}

// SAFETY of the five below: a handle is made only for a frame inside a living arena
// whose header was written by the allocator or judged sound.

impl IHeader<BoxHeader> for BoxRef {
    fn header(&self) -> &BoxHeader {
        unsafe { &*self.ptr }
    }

    fn header_mut(&mut self) -> &mut BoxHeader {
        unsafe { &mut *self.ptr }
    }
}

impl IHeader<BoxHeader> for BoxView {
    fn header(&self) -> &BoxHeader {
        unsafe { &*self.0.ptr }
    }

    fn header_mut(&mut self) -> &mut BoxHeader {
        unsafe { &mut *self.0.ptr }
    }
}

impl IHeader<BaseHeader> for BaseView {
    fn header(&self) -> &BaseHeader {
        unsafe { &*self.0 }
    }

    fn header_mut(&mut self) -> &mut BaseHeader {
        unsafe { &mut *self.0 }
    }
}

impl IHeader<DeltaHeader> for DeltaView {
    fn header(&self) -> &DeltaHeader {
        unsafe { &*self.0 }
    }

    fn header_mut(&mut self) -> &mut DeltaHeader {
        unsafe { &mut *self.0 }
    }
}

impl IHeader<RemoteHeader> for RemoteView {
    fn header(&self) -> &RemoteHeader {
        unsafe { &*self.ptr }
    }

    fn header_mut(&mut self) -> &mut RemoteHeader {
        unsafe { &mut *self.ptr }
    }
}

impl IBoxHeader for BaseView {
    fn box_header(&self) -> &BoxHeader {
        unsafe { &*self.0.cast::<BoxHeader>().sub(1) }
    }

    fn box_header_mut(&mut self) -> &mut BoxHeader {
        unsafe { &mut *self.0.cast::<BoxHeader>().sub(1) }
    }
}
