//! Draws a textured triangle and writes it as `triangle.png`. On standard output: what memory it held, as JSON, which
//! `scripts/picture` of Wallthyme's repository draws. It is the picture of `examples/triangle`, in Rust.
//!
//! ```text
//! cargo run --example triangle
//! ```
//!
//! A program of yours has a binding in place of `vk`, and hands its handles to `DeviceInfo`.

pub mod vk;

use std::error::Error;
use std::ptr::null;
use vk::device::{made, Device};
use vk::*;
use wallthyme::vulkan::{self, Allocator, Buffer, BufferCreateInfo, Extent3D, Image, ImageCreateInfo};
use wallthyme::UsageFlags;

pub const TARGET_SIDE: u32 = 256;
const TEXTURE_SIDE: u32 = 64;
const FIELD_SIDE: u32 = 8;
const TARGET_BYTES: u64 = 4 * (TARGET_SIDE * TARGET_SIDE) as u64;
const TEXTURE_BYTES: u64 = 4 * (TEXTURE_SIDE * TEXTURE_SIDE) as u64;
const CLEAR: [f32; 4] = [0.05, 0.05, 0.10, 1.0];
pub const FIELDS: [[u8; 4]; 2] = [[235, 160, 60, 255], [40, 90, 160, 255]];

/// A position and a place in the texture each.
const VERTICES: [[f32; 4]; 3] = [[0.0, -0.8, 0.5, 0.0], [0.8, 0.8, 1.0, 1.0], [-0.8, 0.8, 0.0, 1.0]];
const VERTICES_BYTES: u64 = size_of::<[[f32; 4]; 3]>() as u64;

const VERTEX_SHADER: &str = include_str!("../../examples/triangle/triangle.vert.spv.inc");
const FRAGMENT_SHADER: &str = include_str!("../../examples/triangle/triangle.frag.spv.inc");

type Result<T> = std::result::Result<T, Box<dyn Error>>;

// ---- The resources. ----

struct Resources {
    vertices: Buffer,
    texture: Image,
    target: Image,
    /// The texture, then the vertices.
    staging: Buffer,
    /// The target's pixels, row by row.
    read_back: Buffer,
}

fn buffer_info(size: u64, usage: u32) -> BufferCreateInfo {
    BufferCreateInfo { size, usage, ..Default::default() }
}

fn image_info(side: u32, usage: u32) -> ImageCreateInfo {
    ImageCreateInfo {
        image_type: TYPE_2D,
        format: FORMAT_R8G8B8A8_UNORM,
        extent: Extent3D { width: side, height: side, depth: 1 },
        mip_levels: 1,
        array_layers: 1,
        samples: 1,
        usage,
        ..Default::default()
    }
}

fn create(allocator: &mut Allocator) -> Result<Resources> {
    let device = UsageFlags::FAST_DEVICE_ACCESS;
    let vertices = buffer_info(VERTICES_BYTES, BUFFER_VERTEX | BUFFER_TRANSFER_DST);
    let texture = image_info(TEXTURE_SIDE, IMAGE_SAMPLED | IMAGE_TRANSFER_DST);
    let target = image_info(TARGET_SIDE, IMAGE_COLOR_ATTACHMENT | IMAGE_TRANSFER_SRC);
    let staging = buffer_info(TEXTURE_BYTES + VERTICES_BYTES, BUFFER_TRANSFER_SRC);
    let read_back = buffer_info(TARGET_BYTES, BUFFER_TRANSFER_DST);
    // SAFETY: each device allows these buffers and images.
    unsafe {
        Ok(Resources {
            vertices: allocator.create_buffer(&vertices, device)?,
            texture: allocator.create_image(&texture, device)?,
            target: allocator.create_image(&target, device)?,
            staging: allocator.create_buffer(&staging, UsageFlags::UPLOAD | UsageFlags::TRANSIENT)?,
            read_back: allocator.create_buffer(&read_back, UsageFlags::DOWNLOAD)?,
        })
    }
}

fn destroy(allocator: &mut Allocator, resources: Resources) {
    // SAFETY: the device is done with them.
    unsafe {
        allocator.destroy_buffer(resources.vertices);
        allocator.destroy_image(resources.texture);
        allocator.destroy_image(resources.target);
        allocator.destroy_buffer(resources.staging);
        allocator.destroy_buffer(resources.read_back);
    }
}

fn checkerboard() -> Vec<u8> {
    let texels = (0..TEXTURE_SIDE * TEXTURE_SIDE).map(|at| (at % TEXTURE_SIDE, at / TEXTURE_SIDE));
    texels.flat_map(|(x, y)| FIELDS[((x / FIELD_SIDE + y / FIELD_SIDE) % 2) as usize]).collect()
}

// ---- How the triangle's pixels are made of vertices and texels. ----

struct Pipeline {
    texture: u64,
    target: u64,
    sampler: u64,
    set_layout: u64,
    pool: u64,
    set: u64,
    pass: u64,
    framebuffer: u64,
    layout: u64,
    handle: u64,
}

fn create_view(d: &Device, image: u64) -> Result<u64> {
    let info = ImageViewCreateInfo {
        image,
        view_type: TYPE_2D,
        format: FORMAT_R8G8B8A8_UNORM,
        subresource_range: WHOLE,
        ..Default::default()
    };
    // SAFETY: the image is live, and has that format and range.
    Ok(made("vkCreateImageView", |to| unsafe { (d.call.create_image_view)(d.handle, &info, null(), to) })?)
}

/// The fragment shader's texture, with nearest texels: the sampler, the set's layout, its pool, and the set.
fn create_set(d: &Device, texture: u64) -> Result<[u64; 4]> {
    let binding = DescriptorSetLayoutBinding {
        descriptor_type: DESCRIPTOR_COMBINED_IMAGE_SAMPLER,
        descriptor_count: 1,
        stage_flags: SHADER_FRAGMENT,
        ..Default::default()
    };
    let layout = DescriptorSetLayoutCreateInfo { binding_count: 1, p_bindings: &binding, ..Default::default() };
    let size = DescriptorPoolSize { descriptor_type: DESCRIPTOR_COMBINED_IMAGE_SAMPLER, descriptor_count: 1 };
    let pool = DescriptorPoolCreateInfo { max_sets: 1, pool_size_count: 1, p_pool_sizes: &size, ..Default::default() };
    // SAFETY: the handles are live; all that is passed lives until its call ends.
    unsafe {
        let create = d.call.create_sampler;
        let sampler = made("vkCreateSampler", |to| create(d.handle, &SamplerCreateInfo::default(), null(), to))?;
        let create = d.call.create_descriptor_set_layout;
        let layout = made("vkCreateDescriptorSetLayout", |to| create(d.handle, &layout, null(), to))?;
        let create = d.call.create_descriptor_pool;
        let pool = made("vkCreateDescriptorPool", |to| create(d.handle, &pool, null(), to))?;
        let set = DescriptorSetAllocateInfo {
            descriptor_pool: pool,
            descriptor_set_count: 1,
            p_set_layouts: &layout,
            ..Default::default()
        };
        let allocate = d.call.allocate_descriptor_sets;
        let set = made("vkAllocateDescriptorSets", |to| allocate(d.handle, &set, to))?;
        let image = DescriptorImageInfo { sampler, image_view: texture, image_layout: LAYOUT_SHADER_READ_ONLY };
        let write = WriteDescriptorSet {
            dst_set: set,
            descriptor_count: 1,
            descriptor_type: DESCRIPTOR_COMBINED_IMAGE_SAMPLER,
            p_image_info: &image,
            ..Default::default()
        };
        (d.call.update_descriptor_sets)(d.handle, 1, &write, 0, null());
        Ok([sampler, layout, pool, set])
    }
}

/// It clears the target, and leaves it to be copied from. With its framebuffer.
fn create_pass(d: &Device, target: u64) -> Result<[u64; 2]> {
    let attachment = AttachmentDescription {
        format: FORMAT_R8G8B8A8_UNORM,
        samples: 1,
        load_op: LOAD_OP_CLEAR,
        final_layout: LAYOUT_TRANSFER_SRC,
        ..Default::default()
    };
    let colour = AttachmentReference { attachment: 0, layout: LAYOUT_COLOR_ATTACHMENT };
    let subpass = SubpassDescription { color_attachment_count: 1, p_color_attachments: &colour, ..Default::default() };
    let copied_after = SubpassDependency {
        src_subpass: 0,
        dst_subpass: NONE,
        src_stage_mask: STAGE_COLOR_ATTACHMENT_OUTPUT,
        dst_stage_mask: STAGE_TRANSFER,
        src_access_mask: ACCESS_COLOR_ATTACHMENT_WRITE,
        dst_access_mask: ACCESS_TRANSFER_READ,
        ..Default::default()
    };
    let info = RenderPassCreateInfo {
        attachment_count: 1,
        p_attachments: &attachment,
        subpass_count: 1,
        p_subpasses: &subpass,
        dependency_count: 1,
        p_dependencies: &copied_after,
        ..Default::default()
    };
    // SAFETY: the view is live; all that is passed lives until its call ends.
    unsafe {
        let pass = made("vkCreateRenderPass", |to| (d.call.create_render_pass)(d.handle, &info, null(), to))?;
        let info = FramebufferCreateInfo {
            render_pass: pass,
            attachment_count: 1,
            p_attachments: &target,
            width: TARGET_SIDE,
            height: TARGET_SIDE,
            layers: 1,
            ..Default::default()
        };
        let framebuffer = made("vkCreateFramebuffer", |to| (d.call.create_framebuffer)(d.handle, &info, null(), to))?;
        Ok([pass, framebuffer])
    }
}

/// A shader of the words of this text.
fn stage_of(d: &Device, stage: u32, text: &str) -> Result<PipelineShaderStageCreateInfo> {
    let words = text.split(',').map(|word| word.trim().trim_start_matches("0x")).filter(|word| !word.is_empty());
    let words = words.map(|word| u32::from_str_radix(word, 16)).collect::<std::result::Result<Vec<_>, _>>()?;
    let info = ShaderModuleCreateInfo { code_size: 4 * words.len(), p_code: words.as_ptr(), ..Default::default() };
    // SAFETY: the words are those of a shader, and live until the call ends.
    let module =
        made("vkCreateShaderModule", |to| unsafe { (d.call.create_shader_module)(d.handle, &info, null(), to) })?;
    Ok(PipelineShaderStageCreateInfo { stage, module, p_name: c"main".as_ptr(), ..Default::default() })
}

/// The pipeline and its layout.
fn create_handle(d: &Device, set_layout: u64, pass: u64) -> Result<[u64; 2]> {
    let layout = PipelineLayoutCreateInfo { set_layout_count: 1, p_set_layouts: &set_layout, ..Default::default() };
    let stages = [stage_of(d, SHADER_VERTEX, VERTEX_SHADER)?, stage_of(d, SHADER_FRAGMENT, FRAGMENT_SHADER)?];
    let binding = VertexInputBindingDescription { stride: size_of::<[f32; 4]>() as u32, ..Default::default() };
    let attributes = [0, 1].map(|location| VertexInputAttributeDescription {
        location,
        binding: 0,
        format: FORMAT_R32G32_SFLOAT,
        offset: location * size_of::<[f32; 2]>() as u32,
    });
    let input = VertexInputStateCreateInfo {
        vertex_binding_description_count: 1,
        p_vertex_binding_descriptions: &binding,
        vertex_attribute_description_count: 2,
        p_vertex_attribute_descriptions: attributes.as_ptr(),
        ..Default::default()
    };
    let assembly = InputAssemblyStateCreateInfo { topology: TRIANGLE_LIST, ..Default::default() };
    let side = TARGET_SIDE as f32;
    let all = Viewport { width: side, height: side, max_depth: 1.0, ..Default::default() };
    let scissor = Rect2D { offset: [0; 2], extent: [TARGET_SIDE; 2] };
    let viewport = ViewportStateCreateInfo {
        viewport_count: 1,
        p_viewports: &all,
        scissor_count: 1,
        p_scissors: &scissor,
        ..Default::default()
    };
    let rasterization = RasterizationStateCreateInfo { line_width: 1.0, ..Default::default() };
    let samples = MultisampleStateCreateInfo { rasterization_samples: 1, ..Default::default() };
    let channels = ColorBlendAttachmentState { color_write_mask: 0xf, ..Default::default() };
    let blend = ColorBlendStateCreateInfo { attachment_count: 1, p_attachments: &channels, ..Default::default() };
    // SAFETY: the handles are live; all that is passed lives until its call ends.
    unsafe {
        let create = d.call.create_pipeline_layout;
        let layout = made("vkCreatePipelineLayout", |to| create(d.handle, &layout, null(), to))?;
        let info = GraphicsPipelineCreateInfo {
            stage_count: 2,
            p_stages: stages.as_ptr(),
            p_vertex_input_state: &input,
            p_input_assembly_state: &assembly,
            p_viewport_state: &viewport,
            p_rasterization_state: &rasterization,
            p_multisample_state: &samples,
            p_color_blend_state: &blend,
            layout,
            render_pass: pass,
            ..Default::default()
        };
        let create = d.call.create_graphics_pipelines;
        let handle = made("vkCreateGraphicsPipelines", |to| create(d.handle, 0, 1, &info, null(), to))?;
        stages.iter().for_each(|stage| (d.call.destroy_shader_module)(d.handle, stage.module, null()));
        Ok([layout, handle])
    }
}

fn create_pipeline(d: &Device, resources: &Resources) -> Result<Pipeline> {
    let texture = create_view(d, resources.texture.handle.0)?;
    let target = create_view(d, resources.target.handle.0)?;
    let [sampler, set_layout, pool, set] = create_set(d, texture)?;
    let [pass, framebuffer] = create_pass(d, target)?;
    let [layout, handle] = create_handle(d, set_layout, pass)?;
    Ok(Pipeline { texture, target, sampler, set_layout, pool, set, pass, framebuffer, layout, handle })
}

fn destroy_pipeline(d: &Device, p: &Pipeline) {
    // SAFETY: the device is done with them.
    unsafe {
        (d.call.destroy_pipeline)(d.handle, p.handle, null());
        (d.call.destroy_pipeline_layout)(d.handle, p.layout, null());
        (d.call.destroy_framebuffer)(d.handle, p.framebuffer, null());
        (d.call.destroy_render_pass)(d.handle, p.pass, null());
        (d.call.destroy_descriptor_pool)(d.handle, p.pool, null());
        (d.call.destroy_descriptor_set_layout)(d.handle, p.set_layout, null());
        (d.call.destroy_sampler)(d.handle, p.sampler, null());
        (d.call.destroy_image_view)(d.handle, p.target, null());
        (d.call.destroy_image_view)(d.handle, p.texture, null());
    }
}

// ---- The commands. ----

fn to_layout(image: u64, [old_layout, new_layout]: [i32; 2], [before, after]: [u32; 2]) -> ImageMemoryBarrier {
    ImageMemoryBarrier {
        src_access_mask: before,
        dst_access_mask: after,
        old_layout,
        new_layout,
        src_queue_family_index: NONE,
        dst_queue_family_index: NONE,
        image,
        subresource_range: WHOLE,
        ..Default::default()
    }
}

fn between(before: u32, after: u32) -> MemoryBarrier {
    MemoryBarrier { src_access_mask: before, dst_access_mask: after, ..Default::default() }
}

fn all_of_image(side: u32) -> BufferImageCopy {
    let image_extent = Extent3D { width: side, height: side, depth: 1 };
    BufferImageCopy { image_subresource: LEVEL, image_extent, ..Default::default() }
}

/// What the host wrote before the submission is visible to its commands.
///
/// # Safety
///
/// The commands are being recorded, as in the next two.
unsafe fn record_upload(d: &Device, commands: usize, r: &Resources) {
    let (texture, staging) = (r.texture.handle.0, r.staging.handle.0);
    let writes = [0, ACCESS_TRANSFER_WRITE];
    let reads = [ACCESS_TRANSFER_WRITE, ACCESS_SHADER_READ];
    let before = to_layout(texture, [LAYOUT_UNDEFINED, LAYOUT_TRANSFER_DST], writes);
    let after = to_layout(texture, [LAYOUT_TRANSFER_DST, LAYOUT_SHADER_READ_ONLY], reads);
    let vertices = between(ACCESS_TRANSFER_WRITE, ACCESS_VERTEX_ATTRIBUTE_READ);
    let bytes = BufferCopy { src_offset: TEXTURE_BYTES, dst_offset: 0, size: VERTICES_BYTES };
    let (texels, barrier) = (all_of_image(TEXTURE_SIDE), d.call.cmd_pipeline_barrier);
    let drawing = STAGE_VERTEX_INPUT | STAGE_FRAGMENT_SHADER;
    // SAFETY: as the caller says. The resources are live; all that is passed lives until its call ends.
    unsafe {
        barrier(commands, STAGE_TOP_OF_PIPE, STAGE_TRANSFER, 0, 0, null(), 0, null(), 1, &before);
        (d.call.cmd_copy_buffer_to_image)(commands, staging, texture, LAYOUT_TRANSFER_DST, 1, &texels);
        (d.call.cmd_copy_buffer)(commands, staging, r.vertices.handle.0, 1, &bytes);
        barrier(commands, STAGE_TRANSFER, drawing, 0, 1, &vertices, 0, null(), 1, &after);
    }
}

/// # Safety
///
/// As for `record_upload`.
unsafe fn record_drawing(d: &Device, commands: usize, r: &Resources, p: &Pipeline) {
    const GRAPHICS: i32 = 0;
    let pass = RenderPassBeginInfo {
        render_pass: p.pass,
        framebuffer: p.framebuffer,
        render_area: Rect2D { offset: [0; 2], extent: [TARGET_SIDE; 2] },
        clear_value_count: 1,
        p_clear_values: &CLEAR,
        ..Default::default()
    };
    // SAFETY: as for `record_upload`.
    unsafe {
        (d.call.cmd_begin_render_pass)(commands, &pass, 0);
        (d.call.cmd_bind_pipeline)(commands, GRAPHICS, p.handle);
        (d.call.cmd_bind_descriptor_sets)(commands, GRAPHICS, p.layout, 0, 1, &p.set, 0, null());
        (d.call.cmd_bind_vertex_buffers)(commands, 0, 1, &r.vertices.handle.0, &0);
        (d.call.cmd_draw)(commands, 3, 1, 0, 0);
        (d.call.cmd_end_render_pass)(commands);
    }
}

/// The barrier makes what the device wrote available to the host.
///
/// # Safety
///
/// As for `record_upload`.
unsafe fn record_read_back(d: &Device, commands: usize, r: &Resources) {
    let (target, read_back) = (r.target.handle.0, r.read_back.handle.0);
    let to_host = between(ACCESS_TRANSFER_WRITE, ACCESS_HOST_READ);
    let (pixels, barrier) = (all_of_image(TARGET_SIDE), d.call.cmd_pipeline_barrier);
    // SAFETY: as for `record_upload`.
    unsafe {
        (d.call.cmd_copy_image_to_buffer)(commands, target, LAYOUT_TRANSFER_SRC, read_back, 1, &pixels);
        barrier(commands, STAGE_TRANSFER, STAGE_HOST, 0, 1, &to_host, 0, null(), 0, null());
    }
}

fn draw(d: &Device, resources: &Resources) -> Result<()> {
    let pipeline = create_pipeline(d, resources)?;
    // SAFETY: the commands are being recorded.
    d.run(|commands| unsafe {
        record_upload(d, commands, resources);
        record_drawing(d, commands, resources, &pipeline);
        record_read_back(d, commands, resources);
    })?;
    destroy_pipeline(d, &pipeline);
    Ok(())
}

/// The triangle's pixels, row by row, and the report of the memory that it held.
pub fn picture(d: &Device) -> Result<(Vec<u8>, String)> {
    // SAFETY: the device outlives the allocator, and offers what it says.
    let mut allocator = Allocator::new(unsafe { vulkan::Device::load(&d.info()) }?)?;
    let mut resources = create(&mut allocator)?;
    let staging = &mut resources.staging.block;
    let vertices: Vec<u8> = VERTICES.iter().flatten().flat_map(|number| number.to_ne_bytes()).collect();
    let mut pixels = vec![0; TARGET_BYTES as usize];
    // SAFETY: the device does not use the buffers meanwhile: a run ends when it is done with them.
    unsafe {
        allocator.write(staging, 0, &checkerboard())?;
        allocator.write(staging, TEXTURE_BYTES, &vertices)?;
        draw(d, &resources)?;
        allocator.read(&mut resources.read_back.block, 0, &mut pixels)?;
    }
    let report = allocator.report()?;
    destroy(&mut allocator, resources);
    Ok((pixels, report))
}

// ---- The file. ----

/// A part of a PNG file: its length, name and bytes, and a checksum of the last two.
fn chunk(name: &[u8; 4], bytes: &[u8]) -> Vec<u8> {
    let part = [name, bytes].concat();
    let sum = part.iter().fold(!0, |sum: u32, &byte| {
        (0..8).fold(sum ^ u32::from(byte), |sum, _| if sum & 1 == 1 { 0xedb8_8320 ^ sum >> 1 } else { sum >> 1 })
    });
    [&(bytes.len() as u32).to_be_bytes(), &part[..], &(!sum).to_be_bytes()].concat()
}

/// A PNG file of the target's pixels, which are not compressed: so no library is needed.
pub fn png(pixels: &[u8]) -> Vec<u8> {
    let rows: Vec<u8> = pixels.chunks(4 * TARGET_SIDE as usize).flat_map(|row| [&[0], row].concat()).collect();
    let [side, mut data] = [TARGET_SIDE.to_be_bytes().to_vec(), vec![0x78, 0x01]];
    let blocks = rows.chunks(0xffff);
    for (left, block) in (0..blocks.len()).rev().zip(blocks) {
        let length = block.len() as u16;
        data.push(u8::from(left == 0));
        data.extend([length.to_le_bytes(), (!length).to_le_bytes()].concat());
        data.extend(block);
    }
    let (low, high) = rows.iter().fold((1, 0), |(low, high), &byte| {
        let low = (low + u32::from(byte)) % 65521;
        (low, (high + low) % 65521)
    });
    data.extend((high << 16 | low).to_be_bytes());
    let header = [&side[..], &side[..], &[8, 6, 0, 0, 0]].concat();
    [&b"\x89PNG\r\n\x1a\n"[..], &chunk(b"IHDR", &header), &chunk(b"IDAT", &data), &chunk(b"IEND", &[])].concat()
}

fn main() -> Result<()> {
    let device = Device::open(wallthyme::vulkan::Enabled::empty(), false)?;
    let (pixels, report) = picture(&device)?;
    std::fs::write("triangle.png", png(&pixels))?;
    println!("{report}");
    match device.close() {
        0 => Ok(()),
        count => Err(format!("{count} messages of the validation layer").into()),
    }
}
