//! Drawn resources over a device: each byte is compared, and no two of them share a byte, or a page where they must
//! not.

use super::pretend::plan;
use super::vk::device::Device;
use super::vk::*;
use crate::common::Random;
use std::ptr::null;
use wallthyme::vulkan::{
    Allocator, Buffer, BufferCreateInfo, Error, Extent3D, HostAccess, Image, ImageCreateInfo, Intent, MemoryRequest,
    Prefer, Tiling,
};
use wallthyme::{AllocationError, Dedicated, MemoryPropertyFlags, UsageFlags};

/// How often a call is made that is refused again and again.
const TRIES: u32 = 500;

pub enum Made {
    Buffer(Buffer),
    /// With its layout.
    Image(Image, i32),
}

/// A resource, and the bytes that it has.
struct Live {
    made: Made,
    optimal: bool,
    side: u32,
    /// What it asked of its memory.
    size: u64,
    bytes: Vec<u8>,
    name: Option<String>,
}

#[derive(Debug, Default)]
pub struct Counts {
    pub created: u64,
    pub refused: u64,
    pub compared: u64,
    /// With an object of its own as required.
    pub own: u64,
    /// With an intent; those that stay mapped; and names that were found in reports.
    pub intents: u64,
    pub mapped: u64,
    pub named: u64,
    /// Pairs of an optimal and a linear resource in one object.
    pub beside: u64,
    /// Limits that were set by budgets, those of them at or below what was held, and refusals over these.
    pub limits: u64,
    pub below: u64,
    pub limited: u64,
}

pub struct World<'a> {
    device: &'a Device,
    allocator: Allocator,
    granularity: u64,
    random: Random,
    live: Vec<Live>,
    pub counts: Counts,
}

/// Makes a call until it is not refused.
fn until<T>(mut call: impl FnMut() -> Result<T, Error>) -> T {
    for _ in 0..TRIES {
        if let Ok(value) = call() {
            return value;
        }
    }
    panic!("a call is refused again and again: {:?}", call().err())
}

impl Live {
    fn block(&mut self) -> &mut wallthyme::MemoryBlock<wallthyme::vulkan::Memory> {
        match &mut self.made {
            Made::Buffer(buffer) => &mut buffer.block,
            Made::Image(image, _) => &mut image.block,
        }
    }

    /// Whether the host may reach its bytes in their order.
    fn is_seen(&mut self) -> bool {
        let is_buffer = matches!(self.made, Made::Buffer(_));
        is_buffer && self.block().props().contains(MemoryPropertyFlags::HOST_VISIBLE)
    }
}

impl<'a> World<'a> {
    pub fn new(device: &'a Device, allocator: Allocator, seed: u64) -> World<'a> {
        let granularity = allocator.device().buffer_image_granularity();
        World { device, allocator, granularity, random: Random(seed), live: vec![], counts: Counts::default() }
    }

    /// Creates this many resources, and destroys all of them in between and at the end.
    pub fn run(&mut self, resources: u64) {
        while self.counts.created < resources {
            match self.random.below(10) {
                0..=4 => self.create(),
                5..=6 if self.live.len() > 20 => self.destroy(),
                7..=8 if !self.live.is_empty() => {
                    let at = self.random.below(self.live.len() as u64) as usize;
                    self.compare(at);
                }
                9 => match self.random.below(4) {
                    0 => self.allocator.cleanup(),
                    1 => self.find_names(),
                    _ => self.follow_budget(),
                },
                _ => {}
            }
        }
        plan(|plan| plan.budget = None);
        self.lift_limits();
        while !self.live.is_empty() {
            self.compare(self.live.len() - 1);
            self.destroy();
        }
    }

    /// A budget that is often below what is held: new objects are refused then, and what is live stays.
    fn follow_budget(&mut self) {
        let [budget, usage] = [(self.random.below(8) << 20).max(1), self.random.below(4) << 20];
        if plan(|plan| plan.budget.replace([budget, usage]).is_none()) {
            return plan(|plan| plan.budget = None);
        }
        self.allocator.update_budget().expect("budgets are said to be enabled");
        let (held, limit) = (self.held(), self.allocator.heap_limit(0));
        assert_eq!(limit, budget.saturating_sub(usage.saturating_sub(held)));
        self.counts.limits += 1;
        if held < limit {
            return;
        }
        self.counts.below += 1;
        let request = MemoryRequest {
            dedicated: Some(Dedicated::Required),
            memory_types: self.types_of_first_heap(),
            ..Default::default()
        };
        // SAFETY: each device allows it.
        match unsafe { self.allocator.create_buffer(&buffer_info(64), request) } {
            Err(Error::Allocation(AllocationError::OutOfDeviceMemory)) => self.counts.limited += 1,
            Err(Error::Driver { call, .. }) => assert_ne!(call, "vkAllocateMemory"),
            other => panic!("an object is made over the limit: {other:?}"),
        }
    }

    fn types_of_first_heap(&self) -> u32 {
        let types = self.allocator.device().device_properties().memory_types;
        types.iter().enumerate().map(|(index, of)| u32::from(of.heap == 0) << index).sum()
    }

    /// What is held of the first heap, by the books between the allocator and the driver.
    fn held(&self) -> u64 {
        let types = self.types_of_first_heap();
        plan(|plan| plan.held.values().filter(|of| types >> of.0 & 1 == 1).map(|of| of.1).sum())
    }

    fn request(&mut self) -> MemoryRequest {
        const SEEN: [UsageFlags; 3] = [UsageFlags::HOST_ACCESS, UsageFlags::UPLOAD, UsageFlags::DOWNLOAD];
        let mut usage = match self.random.below(2) {
            0 => UsageFlags::FAST_DEVICE_ACCESS,
            _ => SEEN[self.random.below(3) as usize],
        };
        usage.set(UsageFlags::TRANSIENT, self.random.below(3) == 0);
        let dedicated = match self.random.below(10) {
            0 => Some(Dedicated::Required),
            1 | 2 => Some(Dedicated::Preferred),
            _ => None,
        };
        let intent = (self.random.below(2) == 0).then(|| self.intent());
        if intent.is_some() {
            usage &= UsageFlags::TRANSIENT;
        }
        let mapped = self.random.below(3) == 0;
        let min_alignment = if self.random.below(4) == 0 { 1 << self.random.below(14) } else { 0 };
        MemoryRequest { dedicated, intent, mapped, min_alignment, ..usage.into() }
    }

    fn intent(&mut self) -> Intent {
        const PREFERS: [Prefer; 3] = [Prefer::Auto, Prefer::Device, Prefer::Host];
        const ACCESSES: [HostAccess; 5] = [
            HostAccess::None,
            HostAccess::SequentialWrite,
            HostAccess::Random,
            HostAccess::SequentialWriteOrTransfer,
            HostAccess::RandomOrTransfer,
        ];
        Intent { prefer: PREFERS[self.random.below(3) as usize], host: ACCESSES[self.random.below(5) as usize] }
    }

    /// Gives a block a name in place of one that it had, or takes that away.
    fn name(&mut self, live: &mut Live) {
        let name = match self.random.below(3) {
            0 => String::new(),
            1 => format!("\"{}\"\n", self.random.below(1000)),
            _ => format!("Thymian für {}", self.random.below(1000)),
        };
        self.allocator.set_name(live.block(), &name).expect("the host has memory");
        live.name = Some(name).filter(|name| !name.is_empty());
    }

    /// Each name is in the report, with its quotes and its ends of lines escaped, and no other.
    fn find_names(&mut self) {
        let report = self.allocator.report().expect("the host has memory");
        let named: Vec<&String> = self.live.iter().filter_map(|live| live.name.as_ref()).collect();
        assert_eq!(report.matches(r#","name":""#).count(), named.len(), "{report}");
        for name in named {
            let escaped = name.replace('"', "\\\"").replace('\n', "\\u000a");
            assert!(report.contains(&format!(r#","name":"{escaped}""#)), "{report}");
            self.counts.named += 1;
        }
    }

    fn create(&mut self) {
        let request = self.request();
        let side = 1 + self.random.below(64) as u32;
        let kind = self.random.below(5);
        let length = 1 + self.random.below(if kind == 0 { 1 << 20 } else { 1 << 14 });
        let tiling = if kind == 3 { Tiling::LINEAR } else { Tiling::OPTIMAL };
        // SAFETY: each device allows these buffers and images.
        let made = unsafe {
            if kind < 3 {
                let mut info = buffer_info(length);
                if kind == 1 && self.allocator.device().device_properties().buffer_device_address {
                    info.usage |= BUFFER_SHADER_DEVICE_ADDRESS;
                }
                self.allocator.create_buffer(&info, request).map(Made::Buffer)
            } else {
                let image = self.allocator.create_image(&image_info(side, tiling), request);
                image.map(|image| Made::Image(image, LAYOUT_UNDEFINED))
            }
        };
        let Ok(made) = made else {
            self.counts.refused += 1;
            return;
        };
        let (optimal, length) = match &made {
            Made::Buffer(_) => (false, length as usize),
            Made::Image(..) => (tiling == Tiling::OPTIMAL, 4 * (side * side) as usize),
        };
        self.counts.created += 1;
        self.counts.own += u64::from(request.dedicated == Some(Dedicated::Required));
        self.counts.intents += u64::from(request.intent.is_some());
        let size = self.required(&made);
        let mut live = Live { made, optimal, side, size, bytes: self.random.bytes(length), name: None };
        self.look(&mut live, &request);
        self.name(&mut live);
        self.keep_apart(&mut live);
        self.write(&mut live);
        self.live.push(live);
    }

    /// A block is where and what it was asked to be.
    fn look(&mut self, live: &mut Live, request: &MemoryRequest) {
        let block = live.block();
        let is_visible = block.props().contains(MemoryPropertyFlags::HOST_VISIBLE);
        assert_eq!(block.mapped().is_some(), request.mapped && is_visible);
        assert_eq!(block.offset() % request.min_alignment.max(1), 0);
        if let Some(Intent { host: HostAccess::SequentialWrite | HostAccess::Random, .. }) = request.intent {
            assert!(is_visible, "the host cannot access it");
        }
        self.counts.mapped += u64::from(block.mapped().is_some());
    }

    /// How many bytes of its memory a resource uses.
    fn required(&self, made: &Made) -> u64 {
        let device = self.allocator.device();
        // SAFETY: they are live ones of this device.
        unsafe {
            match made {
                Made::Buffer(buffer) => device.buffer_requirements(buffer.handle).size,
                Made::Image(image, _) => device.image_requirements(image.handle, Tiling::OPTIMAL).size,
            }
        }
    }

    fn keep_apart(&mut self, live: &mut Live) {
        let (optimal, size) = (live.optimal, live.size);
        let (memory, offset) = (*live.block().memory(), live.block().offset());
        for other in &mut self.live {
            if *other.block().memory() != memory {
                continue;
            }
            let (first, length) = (other.block().offset(), other.size);
            assert!(offset + size <= first || first + length <= offset, "two resources share a byte");
            if other.optimal != optimal {
                let page = self.granularity.max(1);
                let apart = (offset + size - 1) / page < first / page || (first + length - 1) / page < offset / page;
                assert!(apart, "a linear and an optimal resource share a page");
                self.counts.beside += 1;
            }
        }
    }

    fn destroy(&mut self) {
        let at = self.random.below(self.live.len() as u64) as usize;
        // SAFETY: they are this allocator's, and the device is done with them, as each run waits for it.
        unsafe {
            match self.live.swap_remove(at).made {
                Made::Buffer(buffer) => self.allocator.destroy_buffer(buffer),
                Made::Image(image, _) => self.allocator.destroy_image(image),
            }
        }
    }

    /// Writes its bytes by the host, or by a copy of the device.
    fn write(&mut self, live: &mut Live) {
        let by_host = live.is_seen() && self.random.below(2) == 0;
        let is_mapped = self.random.below(2) == 0;
        let bytes = std::mem::take(&mut live.bytes);
        // SAFETY: the device uses the blocks in `run` alone, which waits for it.
        unsafe {
            if by_host && is_mapped {
                let for_life = live.block().mapped();
                let mut mapped = for_life.unwrap_or_else(|| until(|| self.allocator.map(live.block())));
                mapped.as_mut()[..bytes.len()].copy_from_slice(&bytes);
                until(|| self.allocator.flush(&[(live.block(), 0..bytes.len() as u64)]));
                assert_eq!(self.allocator.unmap(live.block()), for_life.is_none());
            } else if by_host {
                until(|| self.allocator.write(live.block(), 0, &bytes));
            } else {
                let usage = UsageFlags::UPLOAD | UsageFlags::TRANSIENT;
                let mut staging = self.staging(bytes.len(), usage);
                until(|| self.allocator.write(&mut staging.block, 0, &bytes));
                self.copy(&mut live.made, live.side, &staging, bytes.len() as u64, true);
                self.allocator.destroy_buffer(staging);
            }
        }
        live.bytes = bytes;
    }

    fn compare(&mut self, at: usize) {
        let mut live = self.live.swap_remove(at);
        let by_host = live.is_seen() && self.random.below(2) == 0;
        let is_mapped = self.random.below(2) == 0;
        let mut found = vec![0; live.bytes.len()];
        // SAFETY: as for `write`.
        unsafe {
            if by_host && is_mapped {
                let for_life = live.block().mapped();
                let mapped = for_life.unwrap_or_else(|| until(|| self.allocator.map(live.block())));
                until(|| self.allocator.invalidate(&[(live.block(), 0..found.len() as u64)]));
                found.copy_from_slice(&mapped.as_ref()[..live.bytes.len()]);
                assert_eq!(self.allocator.unmap(live.block()), for_life.is_none());
            } else if by_host {
                until(|| self.allocator.read(live.block(), 0, &mut found));
            } else {
                let mut staging = self.staging(found.len(), UsageFlags::DOWNLOAD | UsageFlags::TRANSIENT);
                self.copy(&mut live.made, live.side, &staging, found.len() as u64, false);
                until(|| self.allocator.read(&mut staging.block, 0, &mut found));
                self.allocator.destroy_buffer(staging);
            }
        }
        assert!(found == live.bytes, "a byte is another one than was written");
        let name = live.name.clone();
        assert_eq!(live.block().name(), name.as_deref());
        if self.random.below(4) == 0 {
            self.name(&mut live);
        }
        self.counts.compared += found.len() as u64;
        self.live.push(live);
    }

    /// A buffer to copy from or to, whatever the budget is.
    fn staging(&mut self, length: usize, usage: UsageFlags) -> Buffer {
        self.lift_limits();
        // SAFETY: each device allows it.
        let staging = until(|| unsafe { self.allocator.create_buffer(&buffer_info(length as u64), usage) });
        if plan(|plan| plan.budget.is_some()) {
            self.allocator.update_budget().expect("budgets are said to be enabled");
        }
        staging
    }

    fn lift_limits(&mut self) {
        let heaps = self.allocator.device().device_properties().memory_heaps.len();
        (0..heaps).for_each(|heap| self.allocator.set_heap_limit(heap as u32, u64::MAX));
    }

    /// The device copies between a resource and a staging buffer.
    fn copy(&self, made: &mut Made, side: u32, staging: &Buffer, size: u64, to_resource: bool) {
        let call = &self.device.call;
        let writes = MemoryBarrier {
            src_access_mask: ACCESS_MEMORY_WRITE | ACCESS_HOST_WRITE,
            dst_access_mask: ACCESS_TRANSFER_READ | ACCESS_TRANSFER_WRITE,
            ..Default::default()
        };
        let to_host = MemoryBarrier {
            src_access_mask: ACCESS_TRANSFER_WRITE,
            dst_access_mask: ACCESS_HOST_READ | ACCESS_HOST_WRITE,
            ..Default::default()
        };
        let layout = if to_resource { LAYOUT_TRANSFER_DST } else { LAYOUT_TRANSFER_SRC };
        let image_extent = Extent3D { width: side, height: side, depth: 1 };
        let texels = BufferImageCopy { image_subresource: LEVEL, image_extent, ..Default::default() };
        let bytes = BufferCopy { size, ..Default::default() };
        let staging = staging.handle.0;
        let mut change = ImageMemoryBarrier {
            src_access_mask: ACCESS_MEMORY_WRITE,
            dst_access_mask: ACCESS_TRANSFER_READ | ACCESS_TRANSFER_WRITE,
            new_layout: layout,
            src_queue_family_index: NONE,
            dst_queue_family_index: NONE,
            subresource_range: WHOLE,
            ..Default::default()
        };
        let before = STAGE_ALL_COMMANDS | STAGE_HOST;
        // SAFETY: the resources are live, in these layouts; all that is passed lives until its call ends.
        let ran = self.device.run(|commands| unsafe {
            let changes = match made {
                Made::Buffer(_) => 0,
                Made::Image(image, old) => {
                    (change.image, change.old_layout) = (image.handle.0, *old);
                    *old = layout;
                    1
                }
            };
            let barrier = call.cmd_pipeline_barrier;
            barrier(commands, before, STAGE_TRANSFER, 0, 1, &writes, 0, null(), changes, &change);
            match (&*made, to_resource) {
                (Made::Buffer(buffer), true) => (call.cmd_copy_buffer)(commands, staging, buffer.handle.0, 1, &bytes),
                (Made::Buffer(buffer), false) => (call.cmd_copy_buffer)(commands, buffer.handle.0, staging, 1, &bytes),
                (Made::Image(image, _), true) => {
                    (call.cmd_copy_buffer_to_image)(commands, staging, image.handle.0, layout, 1, &texels);
                }
                (Made::Image(image, _), false) => {
                    (call.cmd_copy_image_to_buffer)(commands, image.handle.0, layout, staging, 1, &texels);
                }
            }
            barrier(commands, STAGE_TRANSFER, STAGE_HOST, 0, 1, &to_host, 0, null(), 0, null());
        });
        ran.expect("the device copies");
    }
}

pub fn buffer_info(size: u64) -> BufferCreateInfo {
    BufferCreateInfo { size, usage: BUFFER_TRANSFER_SRC | BUFFER_TRANSFER_DST, ..Default::default() }
}

pub fn image_info(side: u32, tiling: Tiling) -> ImageCreateInfo {
    ImageCreateInfo {
        image_type: TYPE_2D,
        format: FORMAT_R8G8B8A8_UNORM,
        extent: Extent3D { width: side, height: side, depth: 1 },
        mip_levels: 1,
        array_layers: 1,
        samples: 1,
        tiling,
        usage: IMAGE_TRANSFER_SRC | IMAGE_TRANSFER_DST,
        ..Default::default()
    }
}
