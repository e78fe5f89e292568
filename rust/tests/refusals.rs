//! Each question of a program refused in turn, in each way.

mod common;

use common::*;
use wallthyme::*;

/// What a program asks for: size, usage, and a word on objects of its own.
const REQUESTS: [(u64, UsageFlags, Option<Dedicated>); 9] = [
    (100, UsageFlags::UPLOAD, None),
    (100, UsageFlags::UPLOAD.union(UsageFlags::TRANSIENT), None),
    (100, UsageFlags::DOWNLOAD, None),
    (100, UsageFlags::DOWNLOAD.union(UsageFlags::TRANSIENT), None),
    (200_000, UsageFlags::DOWNLOAD, None),
    (200_000, UsageFlags::UPLOAD.union(UsageFlags::TRANSIENT), None),
    (200_000, UsageFlags::empty(), None),
    (3_000, UsageFlags::FAST_DEVICE_ACCESS.union(UsageFlags::TRANSIENT), Some(Dedicated::Preferred)),
    (77, UsageFlags::HOST_ACCESS, Some(Dedicated::Required)),
];

fn ask(
    allocator: &mut GpuAllocator<Memory>,
    device: &Device,
    (size, usage, dedicated): (u64, UsageFlags, Option<Dedicated>),
) -> Result<MemoryBlock<Memory>, AllocationError> {
    let request = request(size, usage);
    // SAFETY: there is one device, which offers what the allocator was made with.
    unsafe {
        match dedicated {
            None => allocator.alloc(device, request),
            Some(dedicated) => allocator.alloc_with_dedicated(device, request, dedicated),
        }
    }
}

/// Asks until it is granted: once more where it was refused, after a look that the refusal changed nothing.
fn granted(
    allocator: &mut GpuAllocator<Memory>,
    device: &Device,
    wanted: (u64, UsageFlags, Option<Dedicated>),
    refused: &mut u64,
) -> MemoryBlock<Memory> {
    let before = (device.objects(), allocator.remaining_allocations());
    ask(allocator, device, wanted).unwrap_or_else(|_| {
        *refused += 1;
        assert_eq!((device.objects(), allocator.remaining_allocations()), before);
        ask(allocator, device, wanted).expect("the device refuses one question")
    })
}

/// Writes and reads a block's bytes, again where it is refused.
fn bytes(device: &Device, block: &mut MemoryBlock<Memory>, refused: &mut u64) {
    if !block.props().contains(MemoryPropertyFlags::HOST_VISIBLE) {
        return;
    }
    let before = device.objects();
    let mut read = [0; 50];
    // SAFETY: there is one device, which uses no block meanwhile.
    unsafe {
        while block.write_bytes(device, 13, &[7; 50]).is_err() {
            *refused += 1;
            assert_eq!(device.objects(), before);
        }
        while block.read_bytes(device, 13, &mut read).is_err() {
            *refused += 1;
            assert_eq!((device.objects(), read), (before.clone(), [0; 50]));
        }
    }
    assert_eq!(read, [7; 50]);
    assert_eq!(device.objects(), before);
}

/// A program with one question refused; how many there were, and how many calls were refused.
fn program(question: u64, refusal: Refusal) -> (u64, u64) {
    let device = Device::new();
    device.refuse(question, refusal);
    let mut allocator = allocator(64);
    let mut refused = 0;
    let mut blocks = Vec::new();
    for wanted in REQUESTS {
        let mut block = granted(&mut allocator, &device, wanted, &mut refused);
        assert!(block.size() >= wanted.0);
        bytes(&device, &mut block, &mut refused);
        blocks.push(block);
    }
    assert_eq!(allocator.remaining_allocations() as usize, 64 - device.held());
    assert_eq!(end(allocator, &device, blocks), 64);
    (device.questions(), refused)
}

#[test]
fn each_question_in_turn() {
    let (questions, refused) = program(0, Refusal::HostMemory);
    assert!(questions > 20);
    assert_eq!(refused, 0);
    for refusal in [Refusal::DeviceMemory, Refusal::HostMemory, Refusal::MapFailed] {
        let mut seen = 0;
        for question in 1..=questions {
            let (_, refused) = program(question, refusal);
            assert!(refused <= 1, "question {question} was refused once");
            // Want of device memory may be met by another memory type.
            assert!(refused == 1 || refusal == Refusal::DeviceMemory, "question {question}");
            seen += refused;
        }
        assert!(seen > 0);
    }
}

/// A new shared object that could not be mapped goes back, also where the next memory type serves.
#[test]
fn an_object_that_was_made_in_vain_goes_back() {
    let device = Device::new();
    let mut allocator = allocator(64);
    device.refuse(2, Refusal::DeviceMemory);
    let wanted = (100, UsageFlags::UPLOAD.union(UsageFlags::TRANSIENT), None);
    let block = ask(&mut allocator, &device, wanted).expect("there are two types that the host sees");
    assert!(device.questions() > 2);
    assert_eq!((block.memory_type(), device.held()), (2, 1));
    assert_eq!(end(allocator, &device, [block]), 64);
}
