//! The search for a block: what is asked for, and what is asked for again.

use super::calls::{Resource, MAP_MEMORY};
use super::device::{Device, Requirements};
use super::device_for::DeviceFor;
use super::error::Error;
use super::raw::Memory;
use super::wish::Wish;
use crate::{AllocationError, Dedicated, GpuAllocator, MemoryBlock, Request};

/// Allocates for a resource, and binds it unless the program will.
///
/// # Safety
///
/// * The device is the allocator's.
/// * The resource is a live one of it that is optimal or not, has no memory, is neither sparse nor disjoint, and no
///   other thread uses it. The request's `next` is as `DeviceFor::with_next` asks.
pub(super) unsafe fn allocate_and_bind(
    core: &mut GpuAllocator<Memory>,
    device: &Device,
    resource: Resource,
    optimal: bool,
    wish: &Wish,
) -> Result<MemoryBlock<Memory>, Error> {
    // SAFETY: as the caller says.
    let requirements = unsafe { device.requirements(resource, optimal) };
    let asked = DeviceFor::new(device, resource);
    // SAFETY: as the caller says.
    let block = unsafe { allocate(core, device, asked, &requirements, wish) }?;
    if wish.request.dont_bind {
        return Ok(block);
    }
    // SAFETY: the block was allocated for the resource's requirements.
    match unsafe { device.bind(resource, &block, 0) } {
        Ok(()) => Ok(block),
        Err(error) => {
            // SAFETY: the block is of that allocator and device, and nothing was bound to it.
            unsafe { core.dealloc(device, block) };
            Err(error)
        }
    }
}

/// Allocates for requirements: of all memory types at once, or of one after the other where this side orders them.
///
/// # Safety
///
/// * `asked` is the device, which is the allocator's.
/// * The request's `next` is as `DeviceFor::with_next` asks.
pub(super) unsafe fn allocate(
    core: &mut GpuAllocator<Memory>,
    device: &Device,
    asked: DeviceFor<'_>,
    requirements: &Requirements,
    wish: &Wish,
) -> Result<MemoryBlock<Memory>, Error> {
    wish.check_address(device)?;
    // SAFETY: as the caller says.
    let asked = unsafe { asked.with_next(wish.request.next) }?.mapped(wish.request.mapped);
    let permitted = wish.permitted(device) & requirements.memory_types;
    let order = if wish.is_ordered() { Some(wish.order(core, device, permitted)?) } else { None };
    let mut search = Search {
        core,
        asked,
        request: Request {
            size: requirements.size,
            align_mask: align_mask(requirements.alignment, wish.request.min_alignment),
            usage: wish.usage(),
            memory_types: permitted,
        },
        dedicated: match (wish.request.dedicated, requirements.dedicated) {
            (Some(Dedicated::Required), _) | (_, Some(Dedicated::Required)) => Some(Dedicated::Required),
            (wanted, needed) => wanted.or(needed),
        },
        optimal: requirements.optimal,
        mapped: wish.request.mapped,
    };
    // SAFETY: as the caller says.
    unsafe {
        match order {
            Some(order) => search.in_order(&order),
            None => search.serve(permitted),
        }
    }
}

/// One less than the greater alignment. One of the requirements that is not a power of two stays, and is refused.
fn align_mask(alignment: u64, min_alignment: u64) -> u64 {
    match alignment.is_power_of_two() {
        true => alignment.max(min_alignment) - 1,
        false => alignment.wrapping_sub(1),
    }
}

/// A request at work.
struct Search<'a> {
    core: &'a mut GpuAllocator<Memory>,
    /// The device, which is the allocator's.
    asked: DeviceFor<'a>,
    request: Request,
    dedicated: Option<Dedicated>,
    optimal: bool,
    mapped: bool,
}

// Each of these functions requires that `asked` is the allocator's device, and the only one of its calls.
impl Search<'_> {
    /// Asks one memory type after the other. Where all are refused, the first error stays.
    ///
    /// # Safety
    ///
    /// As above.
    unsafe fn in_order(&mut self, memory_types: &[u32]) -> Result<MemoryBlock<Memory>, Error> {
        let mut first = None;
        for index in memory_types {
            // SAFETY: as the caller says.
            match unsafe { self.serve(1 << index) } {
                Err(error) if error.goes_on() => first = first.or(Some(error)),
                ended => return ended,
            }
        }
        Err(first.unwrap_or(Error::Allocation(AllocationError::NoCompatibleMemoryTypes)))
    }

    /// Where all memory types were refused, for want of device memory, a block that need not be alone in its object is
    /// asked for once more as one that is: of each type but those whose driver refused such an object. Where that is
    /// refused too, the first error stays, unless its mapping ended the request.
    ///
    /// # Safety
    ///
    /// As above.
    unsafe fn serve(&mut self, memory_types: u32) -> Result<MemoryBlock<Memory>, Error> {
        // SAFETY: as the caller says.
        let refused = match unsafe { self.ask(memory_types, self.dedicated) } {
            Ok(block) => return Ok(block),
            Err(refused) => refused,
        };
        let error = self.error_of(refused);
        let alone = memory_types & self.asked.left_alone();
        let ends = refused != AllocationError::OutOfDeviceMemory || self.dedicated == Some(Dedicated::Required);
        if ends || alone == 0 {
            return Err(error);
        }
        // SAFETY: as the caller says.
        unsafe { self.ask(alone, Some(Dedicated::Required)) }.map_err(|refused| match self.error_of(refused) {
            // There was memory, so that the first error does not say why.
            unmapped @ Error::Driver { call: MAP_MEMORY, .. } if !unmapped.goes_on() => unmapped,
            _ => error,
        })
    }

    /// Asks the core.
    ///
    /// # Safety
    ///
    /// As above.
    unsafe fn ask(
        &mut self,
        memory_types: u32,
        dedicated: Option<Dedicated>,
    ) -> Result<MemoryBlock<Memory>, AllocationError> {
        let request = Request { memory_types, ..self.request };
        // SAFETY: as the caller says.
        let mut block = unsafe {
            match dedicated {
                _ if self.optimal => self.core.alloc_optimal(&self.asked, request, dedicated),
                Some(dedicated) => self.core.alloc_with_dedicated(&self.asked, request, dedicated),
                None => self.core.alloc(&self.asked, request),
            }
        }?;
        if self.mapped {
            block.stay_mapped(self.asked.start());
        }
        Ok(block)
    }

    /// Why the core refused: the driver's result, if that was the reason.
    fn error_of(&self, refused: AllocationError) -> Error {
        let is_reason = |failure: &Error| match refused {
            AllocationError::OutOfDeviceMemory => failure.goes_on(),
            AllocationError::OutOfHostMemory => !failure.goes_on(),
            AllocationError::NoCompatibleMemoryTypes | AllocationError::TooManyObjects => false,
        };
        self.asked.failure().filter(is_reason).unwrap_or(Error::Allocation(refused))
    }
}
