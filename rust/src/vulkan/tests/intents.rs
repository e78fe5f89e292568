//! Which memory types serve an intent, or preferred properties, and in which order they are asked.

use super::memory::{self, flags, Drawn};
use super::*;
use crate::AllocationError;
use std::ptr::{from_ref, null};
use HostAccess::{Random, RandomOrTransfer, SequentialWrite, SequentialWriteOrTransfer};

const PREFERS: [Prefer; 3] = [Prefer::Auto, Prefer::Device, Prefer::Host];
const ACCESSES: [HostAccess; 5] =
    [HostAccess::None, SequentialWrite, Random, SequentialWriteOrTransfer, RandomOrTransfer];

/// Usages of buffers and images: transfers alone, and more.
const TRANSFERS: u32 = 3;
const MORE: u32 = 0x13;

/// What one memory type must have, should have and should not have, by their letters: the rules, row by row.
fn rule(intent: Intent, device_access: bool, is_integrated: bool) -> [&'static str; 3] {
    let is_host = intent.prefer == Prefer::Host;
    let copy_will_do = device_access && !is_integrated && !is_host;
    match (intent.host, copy_will_do, device_access, intent.prefer) {
        (HostAccess::None, _, _, Prefer::Host) => ["", "", "L"],
        (HostAccess::None, ..) => ["", "L", ""],
        (RandomOrTransfer, true, ..) => ["", "HL", ""],
        (Random | RandomOrTransfer, ..) => ["V", "H", ""],
        (SequentialWriteOrTransfer, true, ..) => ["", "LV", "H"],
        (_, _, true, Prefer::Host) => ["V", "", "HL"],
        (_, _, true, _) => ["V", "L", "H"],
        (_, _, false, Prefer::Device) => ["V", "L", "H"],
        (_, _, false, _) => ["V", "", "HL"],
    }
}

/// Of these memory types those that have what they must, by how much they lack of what they should have and have of
/// what they should not.
fn by_rule(memory: &Drawn, types: impl IntoIterator<Item = u32>, [must, should, avoid]: [&str; 3]) -> Vec<u32> {
    let serves = |&index: &u32| {
        let letters = memory.letters(index);
        !letters.contains(['Z', 'P', '?']) && must.chars().all(|letter| letters.contains(letter))
    };
    let faults = |index: u32| {
        let letters = memory.letters(index);
        should.chars().filter(|&letter| !letters.contains(letter)).count()
            + avoid.chars().filter(|&letter| letters.contains(letter)).count()
    };
    let types: Vec<u32> = types.into_iter().filter(serves).collect();
    (0..8).flat_map(|count| types.iter().copied().filter(move |&index| faults(index) == count)).collect()
}

fn all_of(memory: &Drawn) -> std::ops::Range<u32> {
    0..memory.types.len() as u32
}

/// Asks for a buffer, or for an image.
fn create(allocator: &mut Allocator, usage: u32, is_buffer: bool, request: MemoryRequest) -> Result<u32, Error> {
    // SAFETY: the stub allows them, and no device uses them.
    unsafe {
        if is_buffer {
            let made = allocator.create_buffer(&BufferCreateInfo { usage, ..buffer_info(100) }, request)?;
            let memory_type = made.block.memory_type();
            allocator.destroy_buffer(made);
            Ok(memory_type)
        } else {
            let made = allocator.create_image(&ImageCreateInfo { usage, ..image_info(10) }, request)?;
            let memory_type = made.block.memory_type();
            allocator.destroy_image(made);
            Ok(memory_type)
        }
    }
}

/// The memory types that are asked where all are refused: each twice, shared and then alone.
fn asked_in_vain(
    stub: &Stub,
    allocator: &mut Allocator,
    usage: u32,
    is_buffer: bool,
    request: MemoryRequest,
) -> Vec<u32> {
    stub.plan().granted = 0;
    stub.types_asked();
    let refused = create(allocator, usage, is_buffer, request).map_err(Error::result);
    stub.plan().granted = u64::MAX;
    let asked = stub.types_asked();
    let result = match asked.is_empty() {
        true => VkResult::ERROR_FEATURE_NOT_PRESENT,
        false => VkResult::ERROR_OUT_OF_DEVICE_MEMORY,
    };
    assert_eq!((refused, stub.held()), (Err(result), (0, 0, 0)));
    asked
}

/// Each intent, for each usage, over each device: the order is that of the rules, and is the one in which types are
/// asked.
#[test]
fn each_intent() {
    for memory in memory::all() {
        let Some(stub) = memory.stub() else { return };
        let mut allocator = allocator(&stub);
        for (prefer, host) in PREFERS.into_iter().flat_map(|prefer| ACCESSES.map(|host| (prefer, host))) {
            for (usage, is_buffer) in [(TRANSFERS, true), (TRANSFERS, false), (MORE, true), (MORE, false)] {
                let intent = Intent { prefer, host };
                let rule = rule(intent, usage == MORE, memory.device_type == raw::INTEGRATED_GPU);
                let expected = by_rule(&memory, all_of(&memory), rule);
                assert_eq!(allocator.candidates(intent, usage.into()), Ok(expected.clone()), "{intent:?} {usage}");
                let asked = asked_in_vain(&stub, &mut allocator, usage, is_buffer, intent.into());
                let twice: Vec<_> = expected.iter().flat_map(|&index| [index, index]).collect();
                assert_eq!(asked, twice, "{intent:?} {usage}");
                if let Some(&first) = expected.first() {
                    assert_eq!(
                        create(&mut allocator, usage, is_buffer, intent.into()),
                        Ok(first),
                        "{intent:?} {usage}"
                    );
                }
                allocator.cleanup();
            }
        }
        end(stub, allocator, vec![], vec![]);
    }
}

/// Cases that a reader may know by heart.
#[test]
fn well_known_cases() {
    let auto = Intent::auto();
    for (memory, intent, usage, expected) in [
        (memory::discrete(), auto, MORE, vec![0, 3, 1, 2]),
        (memory::discrete(), auto.prefer_host(), MORE, vec![1, 2, 0, 3]),
        // Staging, a read-back, uniforms, and what is written directly where that is possible.
        (memory::discrete(), auto.sequential_write(), TRANSFERS, vec![1, 2, 3]),
        (memory::discrete(), auto.random(), TRANSFERS, vec![2, 1, 3]),
        (memory::discrete(), auto.sequential_write(), MORE, vec![3, 1, 2]),
        (memory::discrete(), auto.sequential_write_or_transfer(), MORE, vec![3, 0, 1, 2]),
        (memory::discrete(), auto.random_or_transfer(), MORE, vec![0, 2, 3, 1]),
        (memory::integrated(), auto.random_or_transfer(), MORE, vec![2, 1, 3]),
        (memory::small_window(), auto.sequential_write(), MORE, vec![4, 2, 3]),
        (memory::software(), auto.prefer_host().sequential_write(), MORE, vec![0]),
    ] {
        let Some(stub) = memory.stub() else { return };
        let mut allocator = allocator(&stub);
        assert_eq!(allocator.candidates(intent, usage.into()), Ok(expected), "{intent:?} {usage}");
        end(stub, allocator, vec![], vec![]);
    }
}

/// Required and preferred properties and permitted types, with an intent and with a usage.
#[test]
fn required_preferred_and_permitted() {
    let sets = ["", "L", "V", "H", "LV", "VH", "LH", "VC", "LVCH"];
    for memory in memory::all() {
        let Some(stub) = memory.stub() else { return };
        let mut allocator = allocator(&stub);
        for (required, preferred) in sets.into_iter().flat_map(|required| sets.map(|preferred| (required, preferred))) {
            for memory_types in [0, 0b0110, 0x5555_5555] {
                let properties = MemoryRequest {
                    required: flags(required),
                    preferred: flags(preferred),
                    memory_types,
                    ..LOCAL.into()
                };
                let is_permitted = |index: &u32| memory_types == 0 || memory_types >> index & 1 == 1;
                let context = format!("{required} {preferred} {memory_types:b}");

                let intent = Intent::auto().sequential_write();
                let [must, should, avoid] = rule(intent, true, memory.device_type == raw::INTEGRATED_GPU);
                let (must, should) = (must.to_owned() + required, letters_of_both(should, preferred));
                let expected = by_rule(&memory, all_of(&memory).filter(is_permitted), [&must, &should, avoid]);
                let request = MemoryRequest { usage: UsageFlags::TRANSIENT, intent: Some(intent), ..properties };
                assert_eq!(allocator.candidates(request, MORE.into()), Ok(expected), "{context}");

                for usage in [LOCAL, UPLOAD, DOWNLOAD] {
                    let ties = allocator.candidates(usage, MORE.into()).expect("the host has memory");
                    let expected = by_rule(&memory, ties.into_iter().filter(is_permitted), [required, preferred, ""]);
                    let request = MemoryRequest { usage, ..properties };
                    assert_eq!(allocator.candidates(request, MORE.into()), Ok(expected.clone()), "{context}");
                    let asked = asked_in_vain(&stub, &mut allocator, MORE, true, request);
                    assert_eq!(asked, shared_and_alone(&expected, preferred.is_empty()), "{usage:?} {context}");
                }
            }
        }
        end(stub, allocator, vec![], vec![]);
    }
}

fn letters_of_both(one: &str, other: &str) -> String {
    one.chars().chain(other.chars().filter(|&letter| !one.contains(letter))).collect()
}

/// What is asked where all is refused: with the core's order all types shared and then all alone, and else each type
/// shared and then alone.
fn shared_and_alone(order: &[u32], is_of_core: bool) -> Vec<u32> {
    match is_of_core {
        true => [order, order].concat(),
        false => order.iter().flat_map(|&index| [index, index]).collect(),
    }
}

/// After a want of device memory, and after too many objects, the next type is asked; another error ends the request.
#[test]
fn the_next_type() {
    let own = MemoryRequest { dedicated: Some(Dedicated::Required), ..Intent::auto().into() };
    for (result, goes_on) in [
        (VkResult::ERROR_OUT_OF_DEVICE_MEMORY, true),
        (VkResult::ERROR_TOO_MANY_OBJECTS, true),
        (VkResult::ERROR_OUT_OF_HOST_MEMORY, false),
        (VkResult::ERROR_DEVICE_LOST, false),
        (VkResult::ERROR_UNKNOWN, false),
    ] {
        let Some(stub) = memory::discrete().stub() else { return };
        let mut allocator = allocator(&stub);
        // The buffer, and then the object in type 0.
        stub.refuse_one(2, result);
        let granted = create(&mut allocator, MORE, true, own).map_err(Error::result);
        assert_eq!(granted, if goes_on { Ok(3) } else { Err(result) });
        assert_eq!((stub.types_asked(), stub.held()), (if goes_on { vec![0, 3] } else { vec![0] }, (0, 0, 0)));
        end(stub, allocator, vec![], vec![]);
    }
}

/// A type is tried alone before the next one is asked.
#[test]
fn alone_before_the_next_type() {
    let Some(stub) = memory::discrete().stub() else { return };
    let mut allocator = allocator(&stub);
    stub.refuse_one(2, VkResult::ERROR_OUT_OF_DEVICE_MEMORY);
    let made = buffer(&mut allocator, 100, Intent::auto());
    assert_eq!(made.block.made_for(), Some(Resource::Buffer(made.handle)));
    assert_eq!((made.block.memory_type(), stub.types_asked()), (0, vec![0, 0]));
    end(stub, allocator, vec![made], vec![]);
}

/// Where all types are refused, the result is that of the first one; where an error ends the request, it is that error.
#[test]
fn the_first_result() {
    let many = VkResult::ERROR_TOO_MANY_OBJECTS;
    let lack = VkResult::ERROR_OUT_OF_DEVICE_MEMORY;
    let lost = VkResult::ERROR_DEVICE_LOST;
    for (number, with, result, asked) in [
        (2, many, many, vec![0, 3, 1, 2]),
        (3, many, lack, vec![0, 3, 1, 2]),
        (5, many, lack, vec![0, 3, 1, 2]),
        (4, lost, lost, vec![0, 3, 1]),
    ] {
        let Some(stub) = memory::discrete().stub() else { return };
        let mut allocator = allocator(&stub);
        stub.plan().granted = 0;
        stub.refuse_one(number, with);
        let own = MemoryRequest { dedicated: Some(Dedicated::Required), ..Intent::auto().into() };
        let refused = create(&mut allocator, MORE, true, own);
        assert_eq!(refused, Err(Error::Driver { call: "vkAllocateMemory", result }));
        assert_eq!((stub.types_asked(), stub.held()), (asked, (0, 0, 0)));
        end(stub, allocator, vec![], vec![]);
    }
}

/// A limit of a heap passes its types over, and an earlier result of the driver is not returned for that.
#[test]
fn limits_count() {
    let Some(stub) = memory::discrete().stub() else { return };
    let mut allocator = allocator(&stub);
    allocator.set_heap_limit(0, 0);
    assert_eq!(create(&mut allocator, MORE, true, Intent::auto().into()), Ok(1));
    assert_eq!(stub.types_asked(), [1]);
    stub.plan().granted = 0;
    allocator.cleanup();
    let refused = create(&mut allocator, MORE, true, Intent::auto().into());
    assert_eq!(refused, Err(Error::Allocation(AllocationError::OutOfDeviceMemory)));
    assert_eq!(stub.types_asked(), [1, 1, 2, 2]);
    end(stub, allocator, vec![], vec![]);
}

/// A new object is not asked for where none remain, but a place in a held one of a later type serves.
#[test]
fn as_many_objects_as_the_device_allows() {
    let Some(stub) = memory::discrete().stub() else { return };
    let mut allocator = Allocator::new(stub.device_of(&DeviceInfo { other_objects: 99, ..stub.info() })).unwrap();
    let held = buffer(&mut allocator, 100, MemoryRequest { memory_types: 0b1000, ..LOCAL.into() });
    stub.types_asked();
    let made = buffer(&mut allocator, 100, Intent::auto());
    assert_eq!((made.block.memory_type(), stub.types_asked()), (3, vec![]));
    let none = create(&mut allocator, MORE, true, Intent::auto().sequential_write().prefer_host().into());
    assert_eq!(none, Ok(3));
    let none = MemoryRequest { memory_types: 0b0111, ..Intent::auto().into() };
    let refused = create(&mut allocator, MORE, true, none);
    assert_eq!((refused, stub.types_asked()), (Err(Error::Allocation(AllocationError::TooManyObjects)), vec![]));
    end(stub, allocator, vec![held, made], vec![]);
}

/// The usage in a buffer's chain stands in place of its own.
#[test]
fn a_usage_in_the_chain() {
    let usage_of = |usage| raw::BufferUsageFlags2CreateInfo {
        s_type: raw::BufferUsageFlags2CreateInfo::TYPE,
        p_next: null(),
        usage,
    };
    let transfers = usage_of(TRANSFERS.into());
    let other = raw::MemoryAllocateFlagsInfo { s_type: 7, p_next: from_ref(&transfers).cast(), ..Default::default() };
    let (more, address) = (usage_of(1 << 40), usage_of(raw::USAGE_SHADER_DEVICE_ADDRESS));
    let Some(stub) = memory::discrete().stub() else { return };
    // The stub takes no other structure in a chain, and counts each of the two here.
    stub.plan().is_quiet = true;
    let info = DeviceInfo { enabled: Enabled::DEVICE_ADDRESS, ..stub.info() };
    let mut allocator = Allocator::new(stub.device_of(&info)).unwrap();
    let writes = Intent::auto().sequential_write();
    let unknown = |usage| raw::MemoryAllocateFlagsInfo { s_type: 7, p_next: null(), flags: usage, device_mask: 0 };
    let nothing = unknown(1);
    for (p_next, usage, memory_type) in [
        (null(), MORE, 3),
        (null(), TRANSFERS, 1),
        (from_ref(&transfers).cast(), MORE, 1),
        (from_ref(&other).cast(), MORE, 1),
        (from_ref(&more).cast(), TRANSFERS, 3),
        (from_ref(&nothing).cast(), TRANSFERS, 1),
        (from_ref(&address).cast(), TRANSFERS, 3),
    ] {
        let info = BufferCreateInfo { p_next, usage, ..buffer_info(100) };
        // SAFETY: the chain lives, and no device uses the buffer.
        let made = unsafe { allocator.create_buffer(&info, writes) }.unwrap();
        assert_eq!(made.block.memory_type(), memory_type);
        // SAFETY: as above.
        unsafe { allocator.destroy_buffer(made) };
    }
    drop(allocator);
    assert_eq!(stub.close(), 2);
}

/// An address is asked for where the buffer's usage has it, also where that is in the chain.
#[test]
fn device_addresses() {
    let address = raw::BufferUsageFlags2CreateInfo {
        s_type: raw::BufferUsageFlags2CreateInfo::TYPE,
        p_next: null(),
        usage: raw::USAGE_SHADER_DEVICE_ADDRESS,
    };
    let of_chain = BufferCreateInfo { p_next: from_ref(&address).cast(), ..buffer_info(100) };
    let own = BufferCreateInfo { usage: raw::USAGE_SHADER_DEVICE_ADDRESS as u32, ..buffer_info(100) };
    // What the stub does not allow, and counts.
    for (info, request, faults) in [
        (of_chain, MemoryRequest::default(), 1),
        (of_chain, Intent::auto().into(), 1),
        (own, Intent::auto().into(), 1),
        (buffer_info(100), MemoryRequest { usage: UsageFlags::DEVICE_ADDRESS, ..Intent::auto().into() }, 0),
    ] {
        let Some(stub) = memory::discrete().stub() else { return };
        stub.plan().is_quiet = true;
        let mut allocator = allocator(&stub);
        // SAFETY: it is refused.
        let refused = unsafe { allocator.create_buffer(&info, request) }.map(drop);
        assert_eq!((refused, stub.types_asked()), (Err(Error::NoDeviceAddress), vec![]));
        assert_eq!(stub.held(), (0, 0, 0));
        if request.usage.contains(UsageFlags::DEVICE_ADDRESS) {
            assert_eq!(allocator.candidates(request, MORE.into()), Err(Error::NoDeviceAddress));
        }
        drop(allocator);
        assert_eq!(stub.close(), faults);
    }
}

/// An intent becomes a request, and its methods set one field each.
#[test]
fn how_intents_are_made() {
    let auto = Intent::auto();
    assert_eq!(auto, Intent::default());
    for (made, prefer, host) in [
        (auto, Prefer::Auto, HostAccess::None),
        (auto.prefer_device(), Prefer::Device, HostAccess::None),
        (auto.random().prefer_host(), Prefer::Host, Random),
        (auto.prefer_host().prefer_device().sequential_write(), Prefer::Device, SequentialWrite),
        (auto.random().sequential_write_or_transfer(), Prefer::Auto, SequentialWriteOrTransfer),
        (auto.prefer_device().random_or_transfer(), Prefer::Device, RandomOrTransfer),
    ] {
        assert_eq!(made, Intent { prefer, host });
        let request = MemoryRequest::from(made);
        assert_eq!((request.intent, request.usage), (Some(made), UsageFlags::empty()));
    }
}
