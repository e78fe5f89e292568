//! A request whose fields go together, and the memory types that serve it.

use super::device::Device;
use super::error::Error;
use super::info::{Enabled, MemoryRequest};
use super::intent::Wants;
use super::raw::{Memory, USAGE_TRANSFER};
use crate::{GpuAllocator, MemoryPropertyFlags, UsageFlags};

/// A memory type with one of these serves no request.
const NEVER_CHOSEN: MemoryPropertyFlags = MemoryPropertyFlags::LAZILY_ALLOCATED.union(MemoryPropertyFlags::PROTECTED);

/// What may be added to an intent.
const WITH_INTENT: UsageFlags = UsageFlags::TRANSIENT.union(UsageFlags::DEVICE_ADDRESS);

/// A request whose fields go together, with what it asks of the properties of memory types.
pub(super) struct Wish {
    pub(super) request: MemoryRequest,
    wants: Wants,
}

impl Wish {
    /// That of a call which sees no create-info.
    ///
    /// # Errors
    ///
    /// [`Error::NoCreateInfo`], [`Error::BadAlignment`], [`Error::ForbiddenProperties`].
    pub(super) fn new(request: MemoryRequest) -> Result<Self, Error> {
        let MemoryRequest { required, preferred, min_alignment, .. } = request;
        if request.intent.is_some() {
            return Err(Error::NoCreateInfo);
        }
        if min_alignment != 0 && !min_alignment.is_power_of_two() {
            return Err(Error::BadAlignment);
        }
        if NEVER_CHOSEN.intersects(required | preferred) {
            return Err(Error::ForbiddenProperties);
        }
        let wants = Wants { required, preferred, unwanted: MemoryPropertyFlags::empty() };
        Ok(Wish { request, wants })
    }

    /// That of a call which sees a create-info with this usage.
    ///
    /// # Errors
    ///
    /// [`Error::UsageWithIntent`], [`Error::BadAlignment`], [`Error::ForbiddenProperties`].
    pub(super) fn with_info(request: MemoryRequest, usage: u64, device: &Device) -> Result<Self, Error> {
        let Some(intent) = request.intent else { return Wish::new(request) };
        if !WITH_INTENT.contains(request.usage) {
            return Err(Error::UsageWithIntent);
        }
        let plain = Wish::new(MemoryRequest { intent: None, ..request })?;
        let device_access = usage & !USAGE_TRANSFER != 0;
        Ok(Wish { request, wants: plain.wants.of(intent, device_access, device.is_integrated()) })
    }

    /// The usage that the core gets: with an intent one that any memory type serves.
    pub(super) fn usage(&self) -> UsageFlags {
        match self.request.intent {
            Some(_) => self.request.usage | UsageFlags::FAST_DEVICE_ACCESS,
            None => self.request.usage,
        }
    }

    /// # Errors
    ///
    /// [`Error::NoDeviceAddress`]: the device does not have what the usage asks.
    pub(super) fn check_address(&self, device: &Device) -> Result<(), Error> {
        let is_asked = self.request.usage.contains(UsageFlags::DEVICE_ADDRESS);
        match is_asked && !device.enabled().contains(Enabled::DEVICE_ADDRESS) {
            true => Err(Error::NoDeviceAddress),
            false => Ok(()),
        }
    }

    /// The memory types that it permits, and that have what it requires.
    pub(super) fn permitted(&self, device: &Device) -> u32 {
        let permitted = if self.request.memory_types == 0 { !0 } else { self.request.memory_types };
        let types = bits_of(permitted & device.known_types());
        types.filter(|&index| device.props_of(index).contains(self.wants.required)).map(|index| 1 << index).sum()
    }

    /// Whether each memory type is asked alone, in this side's order.
    pub(super) fn is_ordered(&self) -> bool {
        self.request.intent.is_some() || !self.wants.preferred.is_empty()
    }

    /// Those of these memory types that serve, in the order in which they are asked: by cost, and of equal ones by
    /// index with an intent, and by the usage without.
    ///
    /// # Errors
    ///
    /// [`Error::Allocation`]: the host has too little memory.
    ///
    /// # Panics
    ///
    /// Where a bit of the usage has no name.
    pub(super) fn order(
        &self,
        core: &mut GpuAllocator<Memory>,
        device: &Device,
        memory_types: u32,
    ) -> Result<Vec<u32>, Error> {
        let props_of = |index| device.props_of(index);
        let mut order = match self.request.intent {
            Some(_) => bits_of(memory_types).filter(|&index| !NEVER_CHOSEN.intersects(props_of(index))).collect(),
            None => core.candidates(self.request.usage, memory_types)?,
        };
        self.wants.sort(&mut order, props_of);
        Ok(order)
    }
}

/// The indices of the bits that are set, the lowest first.
fn bits_of(bits: u32) -> impl Iterator<Item = u32> {
    (0..u32::BITS).filter(move |index| bits >> index & 1 == 1)
}
