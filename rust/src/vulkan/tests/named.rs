//! Names of blocks.

use super::*;
use std::panic::{catch_unwind, AssertUnwindSafe};

/// Quotes, backslashes, control characters, and what is not ASCII; a text that looks like a part of a report too.
const NAMES: [&str; 8] = [
    "thyme",
    "a \"wild\" one",
    "C:\\wild\\thyme",
    "\0\u{1}\t\r\n\u{1f}\u{7f}",
    "Thymian für Übermütige, 百里香, 🌿",
    r#"{"key":4294967296,"user":0,"offset":"#,
    "\\u0041\\\"",
    " ",
];

/// A text of JSON, from behind its first quote on, up to its last one.
fn read_text(text: &str) -> String {
    let mut read = String::new();
    let mut characters = text.chars();
    loop {
        match characters.next().expect("a text ends by a quote") {
            '"' => return read,
            '\\' => match characters.next() {
                Some('u') => {
                    let digits: String = characters.by_ref().take(4).collect();
                    let code = u32::from_str_radix(&digits, 16).expect("four digits follow");
                    read.push(char::from_u32(code).expect("it is a character"));
                }
                Some(escaped @ ('"' | '\\')) => read.push(escaped),
                other => panic!("{other:?} is escaped"),
            },
            control @ '\0'..='\x1f' => panic!("{control:?} is not escaped"),
            character => read.push(character),
        }
    }
}

/// The name of a live block in a report, which follows its user directly.
fn name_in(report: &str, block: &MemoryBlock<Memory>) -> Option<String> {
    let place = format!(r#"{{"key":{},"user":{}"#, block.key(), block.user());
    // Behind the block's own place, not one that a name looks like.
    let behind = report.lines().find_map(|line| line.trim_start().strip_prefix(&place)).expect("the block is in it");
    let name = behind.strip_prefix(r#","name":""#)?;
    Some(read_text(name))
}

#[test]
fn given_replaced_and_taken_away() {
    let stub = stub!();
    let mut allocator = allocator(&stub);
    let plain = buffer(&mut allocator, 100, LOCAL);
    let mut made = buffer(&mut allocator, 100, LOCAL);
    let mut other = image(&mut allocator, 10, dedicated(LOCAL, Dedicated::Required));
    allocator.set_user(&mut other.block, u64::MAX);
    let nameless = allocator.report().unwrap();
    for name in NAMES {
        allocator.set_name(&mut made.block, name).unwrap();
        allocator.set_name(&mut other.block, &format!("not {name}")).unwrap();
        assert_eq!((made.block.name(), plain.block.name()), (Some(name), None));
        let report = allocator.report().unwrap();
        assert_eq!(name_in(&report, &made.block).as_deref(), Some(name), "{report}");
        assert_eq!(name_in(&report, &other.block), Some(format!("not {name}")), "{report}");
        assert_eq!(name_in(&report, &plain.block), None, "{report}");
    }
    for made in [&mut made.block, &mut other.block] {
        allocator.set_name(made, "").unwrap();
        assert_eq!(made.name(), None);
    }
    assert_eq!(allocator.report().unwrap(), nameless);
    end(stub, allocator, vec![plain, made], vec![other]);
}

/// A report with names is the same text with those members.
#[test]
fn nothing_else_of_a_report_changes() {
    let stub = stub!();
    let mut allocator = allocator(&stub);
    let mut buffers: Vec<_> = [LOCAL, UPLOAD, DOWNLOAD, UPLOAD | UsageFlags::TRANSIENT]
        .into_iter()
        .cycle()
        .take(12)
        .map(|usage| buffer(&mut allocator, 1000, usage))
        .collect();
    let nameless = allocator.report().unwrap();
    for (index, made) in (0..).zip(&mut buffers) {
        if index % 3 != 0 {
            allocator.set_name(&mut made.block, &format!("block {index}")).unwrap();
        }
    }
    let mut report = allocator.report().unwrap();
    assert_eq!(report.matches(r#","name":"#).count(), 8);
    (0..12).for_each(|index| report = report.replace(&format!(r#","name":"block {index}""#), ""));
    assert_eq!(report, nameless);
    end(stub, allocator, buffers, vec![]);
}

/// A name goes with its block: the next block, under a like key, has none.
#[test]
fn freed_with_the_block() {
    let stub = stub!();
    let mut allocator = allocator(&stub);
    let kept = buffer(&mut allocator, 100, LOCAL);
    for _ in 0..3 {
        let mut made = buffer(&mut allocator, 100, LOCAL);
        assert_eq!(made.block.name(), None);
        allocator.set_name(&mut made.block, "thyme").unwrap();
        assert_eq!(allocator.report().unwrap().matches("thyme").count(), 1);
        // SAFETY: it is this allocator's, and no device uses it.
        unsafe { allocator.destroy_buffer(made) };
        assert!(!allocator.report().unwrap().contains("thyme"));
    }
    end(stub, allocator, vec![kept], vec![]);
}

/// Another allocator's block keeps the name that it has.
#[test]
fn anothers_block() {
    let stub = stub!();
    let (mut one, mut other) = (allocator(&stub), allocator(&stub));
    let mut made = buffer(&mut one, 100, LOCAL);
    one.set_name(&mut made.block, "thyme").unwrap();
    for name in ["sage", ""] {
        assert!(catch_unwind(AssertUnwindSafe(|| other.set_name(&mut made.block, name))).is_err());
    }
    assert_eq!(made.block.name(), Some("thyme"));
    assert_eq!(name_in(&one.report().unwrap(), &made.block).as_deref(), Some("thyme"));
    drop(other);
    end(stub, one, vec![made], vec![]);
}

/// What is dropped is reported with its name, in one line.
#[test]
fn dropped_with_a_name() {
    keep_dropped();
    let stub = stub!();
    let mut allocator = allocator(&stub);
    let mut made = buffer(&mut allocator, 100, LOCAL);
    let other = buffer(&mut allocator, 100, LOCAL);
    allocator.set_name(&mut made.block, "wild\n\"thyme\"").unwrap();
    drop(allocator);
    let told = DROPPED.take();
    let [Dropped::Allocator { blocks: 2 }, Dropped::BlockOfAllocator(one), Dropped::BlockOfAllocator(two)] = &told[..]
    else {
        panic!("{told:?}")
    };
    assert_eq!((one.name.as_deref(), two.name.as_deref()), (Some("wild\n\"thyme\""), None));
    assert!(one.to_string().ends_with(r#", user 0, name "wild\n\"thyme\"""#), "{one}");
    assert!(two.to_string().ends_with(", user 0"), "{two}");
    let device = stub.device();
    // SAFETY: the stub has them, and nobody uses them.
    unsafe {
        device.destroy(calls::Resource::Buffer(made.handle));
        device.destroy(calls::Resource::Buffer(other.handle));
        device.free(*made.block.memory());
    }
    // The allocator is gone, and the block still has its name.
    drop(made);
    drop(other);
    assert_eq!(DROPPED.take(), [Dropped::Block(one.clone()), Dropped::Block(two.clone())]);
    stub.end();
}
