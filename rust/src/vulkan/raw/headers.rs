//! Shows that what is declared here is what the headers of Vulkan have, where there are a C compiler and those headers.

use super::*;
use std::io::Write;
use std::process::Command;

const SPARSE_BUFFER: &str = "VK_BUFFER_CREATE_SPARSE_BINDING_BIT | VK_BUFFER_CREATE_SPARSE_RESIDENCY_BIT \
                             | VK_BUFFER_CREATE_SPARSE_ALIASED_BIT";
const SPARSE_IMAGE: &str = "VK_IMAGE_CREATE_SPARSE_BINDING_BIT | VK_IMAGE_CREATE_SPARSE_RESIDENCY_BIT \
                            | VK_IMAGE_CREATE_SPARSE_ALIASED_BIT";
const CONSTANTS: &[(&str, u64)] = &[
    ("VK_IMAGE_TILING_OPTIMAL", Tiling::OPTIMAL.0 as u64),
    ("VK_IMAGE_TILING_LINEAR", Tiling::LINEAR.0 as u64),
    ("VK_API_VERSION_1_1", API_VERSION_1_1 as u64),
    ("VK_MAX_MEMORY_TYPES", MAX_TYPES as u64),
    ("VK_MAX_MEMORY_HEAPS", MAX_HEAPS as u64),
    ("VK_MEMORY_HEAP_DEVICE_LOCAL_BIT", HEAP_DEVICE_LOCAL as u64),
    ("VK_MEMORY_ALLOCATE_DEVICE_ADDRESS_BIT", ALLOCATE_DEVICE_ADDRESS as u64),
    ("VK_BUFFER_USAGE_SHADER_DEVICE_ADDRESS_BIT", USAGE_SHADER_DEVICE_ADDRESS),
    ("VK_BUFFER_USAGE_TRANSFER_SRC_BIT | VK_BUFFER_USAGE_TRANSFER_DST_BIT", USAGE_TRANSFER),
    ("VK_IMAGE_USAGE_TRANSFER_SRC_BIT | VK_IMAGE_USAGE_TRANSFER_DST_BIT", USAGE_TRANSFER),
    ("VK_PHYSICAL_DEVICE_TYPE_INTEGRATED_GPU", INTEGRATED_GPU as u64),
    (SPARSE_BUFFER, CREATE_SPARSE as u64),
    (SPARSE_IMAGE, CREATE_SPARSE as u64),
    ("VK_IMAGE_CREATE_DISJOINT_BIT", CREATE_DISJOINT as u64),
];

/// `memory_type_index` as C has it: `memoryTypeIndex`.
fn camel(name: &str) -> String {
    let mut words = name.split('_');
    let first = words.next().unwrap_or_default().to_owned();
    words.fold(first, |name, word| name + &word[..1].to_uppercase() + &word[1..])
}

/// `VkMemoryRequirements2` as its `sType` is named: `VK_STRUCTURE_TYPE_MEMORY_REQUIREMENTS_2`.
fn of_type(c_name: &str) -> String {
    let (name, extension) = c_name.strip_suffix("EXT").map_or((c_name, ""), |name| (name, "_EXT"));
    let words = name[2..].chars().map(|letter| match letter {
        letter if letter.is_uppercase() || letter.is_numeric() => format!("_{letter}"),
        letter => letter.to_uppercase().to_string(),
    });
    format!("VK_STRUCTURE_TYPE{}{extension}", words.collect::<String>())
}

/// What the headers of Vulkan say to each of these, one line of C each.
fn asserts() -> String {
    let mut text = "#include <stddef.h>\n#include <vulkan/vulkan.h>\n".to_owned();
    let mut add = |holds: String| text += &format!("_Static_assert({holds}, \"{}\");\n", holds.replace('"', ""));
    for (c_name, size, fields) in STRUCTS {
        add(format!("sizeof({c_name}) == {size}"));
        for (field, offset) in fields.iter().filter(|named| !named.0.starts_with('_')) {
            add(format!("offsetof({c_name}, {}) == {offset}", camel(field)));
        }
    }
    for (c_name, s_type, [first, second]) in TYPES {
        add(format!("{} == {s_type}", of_type(c_name)));
        add(format!("offsetof({c_name}, sType) == {first} && offsetof({c_name}, pNext) == {second}"));
    }
    CONSTANTS.iter().for_each(|(constant, value)| add(format!("({constant}) == {value}")));
    text
}

/// Whether C takes a text with the headers of Vulkan; else what it says.
fn compiles(text: &str) -> std::io::Result<Result<(), String>> {
    let mut compiler = Command::new("cc")
        .args(["-std=c11", "-fsyntax-only", "-x", "c", "-"])
        .stdin(std::process::Stdio::piped())
        .stderr(std::process::Stdio::piped())
        .spawn()?;
    compiler.stdin.take().expect("it is piped").write_all(text.as_bytes())?;
    let ran = compiler.wait_with_output()?;
    Ok(if ran.status.success() { Ok(()) } else { Err(String::from_utf8_lossy(&ran.stderr).into_owned()) })
}

/// Whether there are a C compiler and the headers of Vulkan.
pub(crate) fn are_there() -> bool {
    matches!(compiles("#include <vulkan/vulkan.h>\n"), Ok(Ok(())))
}

#[test]
fn all_is_as_the_headers_have_it() {
    if !are_there() {
        let left_out = "left out: that structs are those of vulkan.h, since there is no cc or no such header";
        return writeln!(std::io::stderr(), "{left_out}").expect("standard error can be written");
    }
    let text = asserts();
    assert!(text.lines().count() > 100, "{text}");
    assert_eq!(compiles(&text).expect("it ran before"), Ok(()));
    // It would find a slip.
    let slip = text.replace("offsetof(VkMemoryType, heapIndex) == 4", "offsetof(VkMemoryType, heapIndex) == 8");
    assert!(slip != text && compiles(&slip).expect("it ran before").is_err());
}
