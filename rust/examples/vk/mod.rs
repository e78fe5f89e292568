//! As much of Vulkan as the example and the tests call. It stands in place of a binding, of which this crate needs
//! none: structs and functions under their names in Vulkan, in snake case. Handles are numbers. `libvulkan` is loaded
//! at run time.
#![allow(dead_code, missing_docs, reason = "the example and each test take what they need")]

use std::ffi::{c_char, c_int, c_void, CStr};
use wallthyme::vulkan::raw::{GetInstanceProcAddr, Instance};
use wallthyme::vulkan::Extent3D;

pub mod device;

/// Declares structs. A number in brackets is `sType`, which `pNext` follows. All else is zero at first.
macro_rules! structs {
    ($( $Name:ident $([$s_type:literal])? { $( $field:ident: $Type:ty ),* $(,)? } )*) => { $(
        #[derive(Clone, Copy)]
        #[repr(C)]
        pub struct $Name {
            $( #[doc = stringify!($s_type)] pub s_type: i32, pub p_next: *const c_void, )?
            $( pub $field: $Type, )*
        }

        impl Default for $Name {
            #[allow(unused_mut)]
            fn default() -> Self {
                // SAFETY: numbers, raw pointers, optional functions, and structs and arrays of those may be zero.
                let mut zeros: Self = unsafe { std::mem::zeroed() };
                $( zeros.s_type = $s_type; )?
                zeros
            }
        }
    )* };
}

/// `PFN_vkDebugUtilsMessengerCallbackEXT`.
pub type MessageCallback = unsafe extern "system" fn(u32, u32, *const MessengerCallbackData, *mut c_void) -> u32;

structs! {
    ApplicationInfo[0] {
        name: *const c_char, version: u32, engine: *const c_char, engine_version: u32, api_version: u32,
    }
    InstanceCreateInfo[1] {
        flags: u32, p_application_info: *const ApplicationInfo,
        enabled_layer_count: u32, pp_enabled_layer_names: *const *const c_char,
        enabled_extension_count: u32, pp_enabled_extension_names: *const *const c_char,
    }
    DeviceQueueCreateInfo[2] {
        flags: u32, queue_family_index: u32, queue_count: u32, p_queue_priorities: *const f32,
    }
    DeviceCreateInfo[3] {
        flags: u32, queue_create_info_count: u32, p_queue_create_infos: *const DeviceQueueCreateInfo,
        enabled_layer_count: u32, pp_enabled_layer_names: *const *const c_char,
        enabled_extension_count: u32, pp_enabled_extension_names: *const *const c_char,
        p_enabled_features: *const c_void,
    }
    BufferDeviceAddressFeatures[1000257000] { buffer_device_address: u32, replay: u32, multi_device: u32 }
    Features2[1000059000] { features: [u32; 55] }
    ValidationFeatures[1000247000] {
        enabled_count: u32, p_enabled: *const i32, disabled_count: u32, p_disabled: *const i32,
    }
    MessengerCreateInfo[1000128004] {
        flags: u32, message_severity: u32, message_type: u32, pfn_user_callback: Option<MessageCallback>,
        p_user_data: *mut c_void,
    }
    MessengerCallbackData[1000128003] {
        flags: u32, p_message_id_name: *const c_char, message_id_number: i32, p_message: *const c_char,
    }
    MemoryAllocateInfo[5] { allocation_size: u64, memory_type_index: u32 }
    MemoryProperties { type_count: u32, types: [[u32; 2]; 32], heap_count: u32, heaps: [[u64; 2]; 16] }
    MemoryProperties2[1000059006] { properties: MemoryProperties }
    MemoryBudget[1000237000] { heap_budget: [u64; 16], heap_usage: [u64; 16] }
    Properties2[1000059001] {
        before: [u64; 37], limits: [u64; 6], buffer_image_granularity: u64, rest: [u64; 59],
    }
    ExtensionProperties { extension_name: [c_char; 256], spec_version: u32 }
    QueueFamilyProperties { queue_flags: u32, queue_count: u32, timestamp_valid_bits: u32, granularity: [u32; 3] }

    CommandPoolCreateInfo[39] { flags: u32, queue_family_index: u32 }
    CommandBufferAllocateInfo[40] { command_pool: u64, level: i32, command_buffer_count: u32 }
    CommandBufferBeginInfo[42] { flags: u32, p_inheritance_info: *const c_void }
    SubmitInfo[4] {
        wait_semaphore_count: u32, p_wait_semaphores: *const u64, p_wait_dst_stage_mask: *const u32,
        command_buffer_count: u32, p_command_buffers: *const usize,
        signal_semaphore_count: u32, p_signal_semaphores: *const u64,
    }
    MemoryBarrier[46] { src_access_mask: u32, dst_access_mask: u32 }
    ImageMemoryBarrier[45] {
        src_access_mask: u32, dst_access_mask: u32, old_layout: i32, new_layout: i32,
        src_queue_family_index: u32, dst_queue_family_index: u32, image: u64,
        subresource_range: ImageSubresourceRange,
    }
    ImageSubresourceRange {
        aspect_mask: u32, base_mip_level: u32, level_count: u32, base_array_layer: u32, layer_count: u32,
    }
    ImageSubresourceLayers { aspect_mask: u32, mip_level: u32, base_array_layer: u32, layer_count: u32 }
    ImageSubresource { aspect_mask: u32, mip_level: u32, array_layer: u32 }
    SubresourceLayout { offset: u64, size: u64, row_pitch: u64, array_pitch: u64, depth_pitch: u64 }
    BufferCopy { src_offset: u64, dst_offset: u64, size: u64 }
    BufferImageCopy {
        buffer_offset: u64, buffer_row_length: u32, buffer_image_height: u32,
        image_subresource: ImageSubresourceLayers, image_offset: [i32; 3], image_extent: Extent3D,
    }
    ImageCopy {
        src_subresource: ImageSubresourceLayers, src_offset: [i32; 3],
        dst_subresource: ImageSubresourceLayers, dst_offset: [i32; 3], extent: Extent3D,
    }

    ImageViewCreateInfo[15] {
        flags: u32, image: u64, view_type: i32, format: i32, components: [i32; 4],
        subresource_range: ImageSubresourceRange,
    }
    SamplerCreateInfo[31] { flags: u32, mag_filter: i32, min_filter: i32, rest: [u32; 13] }
    DescriptorSetLayoutBinding {
        binding: u32, descriptor_type: i32, descriptor_count: u32, stage_flags: u32, p_immutable_samplers: *const u64,
    }
    DescriptorSetLayoutCreateInfo[32] { flags: u32, binding_count: u32, p_bindings: *const DescriptorSetLayoutBinding }
    DescriptorPoolSize { descriptor_type: i32, descriptor_count: u32 }
    DescriptorPoolCreateInfo[33] {
        flags: u32, max_sets: u32, pool_size_count: u32, p_pool_sizes: *const DescriptorPoolSize,
    }
    DescriptorSetAllocateInfo[34] { descriptor_pool: u64, descriptor_set_count: u32, p_set_layouts: *const u64 }
    DescriptorImageInfo { sampler: u64, image_view: u64, image_layout: i32 }
    WriteDescriptorSet[35] {
        dst_set: u64, dst_binding: u32, dst_array_element: u32, descriptor_count: u32, descriptor_type: i32,
        p_image_info: *const DescriptorImageInfo, p_buffer_info: *const c_void, p_texel_buffer_view: *const u64,
    }
    AttachmentDescription {
        flags: u32, format: i32, samples: u32, load_op: i32, store_op: i32, stencil_load_op: i32,
        stencil_store_op: i32, initial_layout: i32, final_layout: i32,
    }
    AttachmentReference { attachment: u32, layout: i32 }
    SubpassDescription {
        flags: u32, pipeline_bind_point: i32,
        input_attachment_count: u32, p_input_attachments: *const AttachmentReference,
        color_attachment_count: u32, p_color_attachments: *const AttachmentReference,
        p_resolve_attachments: *const AttachmentReference, p_depth_stencil_attachment: *const AttachmentReference,
        preserve_attachment_count: u32, p_preserve_attachments: *const u32,
    }
    SubpassDependency {
        src_subpass: u32, dst_subpass: u32, src_stage_mask: u32, dst_stage_mask: u32, src_access_mask: u32,
        dst_access_mask: u32, dependency_flags: u32,
    }
    RenderPassCreateInfo[38] {
        flags: u32, attachment_count: u32, p_attachments: *const AttachmentDescription,
        subpass_count: u32, p_subpasses: *const SubpassDescription,
        dependency_count: u32, p_dependencies: *const SubpassDependency,
    }
    FramebufferCreateInfo[37] {
        flags: u32, render_pass: u64, attachment_count: u32, p_attachments: *const u64, width: u32, height: u32,
        layers: u32,
    }
    ShaderModuleCreateInfo[16] { flags: u32, code_size: usize, p_code: *const u32 }
    PipelineShaderStageCreateInfo[18] {
        flags: u32, stage: u32, module: u64, p_name: *const c_char, p_specialization_info: *const c_void,
    }
    VertexInputBindingDescription { binding: u32, stride: u32, input_rate: i32 }
    VertexInputAttributeDescription { location: u32, binding: u32, format: i32, offset: u32 }
    VertexInputStateCreateInfo[19] {
        flags: u32,
        vertex_binding_description_count: u32, p_vertex_binding_descriptions: *const VertexInputBindingDescription,
        vertex_attribute_description_count: u32,
        p_vertex_attribute_descriptions: *const VertexInputAttributeDescription,
    }
    InputAssemblyStateCreateInfo[20] { flags: u32, topology: i32, primitive_restart_enable: u32 }
    Viewport { x: f32, y: f32, width: f32, height: f32, min_depth: f32, max_depth: f32 }
    Rect2D { offset: [i32; 2], extent: [u32; 2] }
    ViewportStateCreateInfo[22] {
        flags: u32, viewport_count: u32, p_viewports: *const Viewport, scissor_count: u32, p_scissors: *const Rect2D,
    }
    RasterizationStateCreateInfo[23] {
        flags: u32, depth_clamp_enable: u32, rasterizer_discard_enable: u32, polygon_mode: i32, cull_mode: u32,
        front_face: i32, depth_bias_enable: u32, depth_bias: [f32; 3], line_width: f32,
    }
    MultisampleStateCreateInfo[24] {
        flags: u32, rasterization_samples: u32, sample_shading_enable: u32, min_sample_shading: f32,
        p_sample_mask: *const u32, alpha_to_coverage_enable: u32, alpha_to_one_enable: u32,
    }
    ColorBlendAttachmentState { blend_enable: u32, blend: [i32; 6], color_write_mask: u32 }
    ColorBlendStateCreateInfo[26] {
        flags: u32, logic_op_enable: u32, logic_op: i32, attachment_count: u32,
        p_attachments: *const ColorBlendAttachmentState, blend_constants: [f32; 4],
    }
    PipelineLayoutCreateInfo[30] {
        flags: u32, set_layout_count: u32, p_set_layouts: *const u64, push_constant_range_count: u32,
        p_push_constant_ranges: *const c_void,
    }
    GraphicsPipelineCreateInfo[28] {
        flags: u32, stage_count: u32, p_stages: *const PipelineShaderStageCreateInfo,
        p_vertex_input_state: *const VertexInputStateCreateInfo,
        p_input_assembly_state: *const InputAssemblyStateCreateInfo, p_tessellation_state: *const c_void,
        p_viewport_state: *const ViewportStateCreateInfo, p_rasterization_state: *const RasterizationStateCreateInfo,
        p_multisample_state: *const MultisampleStateCreateInfo, p_depth_stencil_state: *const c_void,
        p_color_blend_state: *const ColorBlendStateCreateInfo, p_dynamic_state: *const c_void, layout: u64,
        render_pass: u64, subpass: u32, base_pipeline_handle: u64, base_pipeline_index: i32,
    }
    RenderPassBeginInfo[43] {
        render_pass: u64, framebuffer: u64, render_area: Rect2D,
        clear_value_count: u32, p_clear_values: *const [f32; 4],
    }
}

/// Loads a function. `F` is its type.
unsafe fn load<F: Copy>(get: GetInstanceProcAddr, instance: Instance, name: &CStr) -> F {
    const { assert!(size_of::<F>() == size_of::<usize>()) };
    // SAFETY: the instance is live, or null for the functions that create one. `F` is as the caller says.
    unsafe {
        let found = get(instance, name.as_ptr()).unwrap_or_else(|| panic!("{name:?} is missing"));
        std::mem::transmute_copy(&found)
    }
}

/// Declares functions: the fields of a struct that are loaded at once. All are called with what Vulkan asks for.
macro_rules! functions {
    ($( $(#[$attribute:meta])* $Name:ident {
        $( $field:ident = $name:literal ($( $argument:ty ),* $(,)?) $(-> $of:ty)?; )*
    } )*) => { $(
        $(#[$attribute])*
        #[derive(Clone, Copy)]
        pub struct $Name {
            $( pub $field: unsafe extern "system" fn($( $argument ),*) $(-> $of)?, )*
        }

        impl $Name {
            /// # Safety
            ///
            /// The function is `vkGetInstanceProcAddr`, and the instance is live or, before there is one, null.
            pub unsafe fn load(get: GetInstanceProcAddr, instance: Instance) -> Self {
                // SAFETY: as the caller says. The types are those of Vulkan.
                unsafe { $Name { $( $field: load(get, instance, $name), )* } }
            }
        }
    )* };
}

type Allocator = *const c_void;

functions! {
    /// What there is before an instance.
    Entry {
        create_instance = c"vkCreateInstance" (*const InstanceCreateInfo, Allocator, *mut Instance) -> i32;
    }

    /// What the extension `VK_EXT_debug_utils` has.
    Messages {
        create_messenger = c"vkCreateDebugUtilsMessengerEXT"
            (Instance, *const MessengerCreateInfo, Allocator, *mut u64) -> i32;
        destroy_messenger = c"vkDestroyDebugUtilsMessengerEXT" (Instance, u64, Allocator);
    }

    /// What an instance has.
    Functions {
        destroy_instance = c"vkDestroyInstance" (Instance, Allocator);
        enumerate_physical_devices = c"vkEnumeratePhysicalDevices" (Instance, *mut u32, *mut usize) -> i32;
        enumerate_device_extension_properties = c"vkEnumerateDeviceExtensionProperties"
            (usize, *const c_char, *mut u32, *mut ExtensionProperties) -> i32;
        get_physical_device_properties = c"vkGetPhysicalDeviceProperties" (usize, *mut [u32; 206]);
        get_physical_device_features2 = c"vkGetPhysicalDeviceFeatures2" (usize, *mut Features2);
        get_physical_device_queue_family_properties = c"vkGetPhysicalDeviceQueueFamilyProperties"
            (usize, *mut u32, *mut QueueFamilyProperties);
        create_device = c"vkCreateDevice" (usize, *const DeviceCreateInfo, Allocator, *mut usize) -> i32;
        destroy_device = c"vkDestroyDevice" (usize, Allocator);
        get_device_queue = c"vkGetDeviceQueue" (usize, u32, u32, *mut usize);
        create_command_pool = c"vkCreateCommandPool" (usize, *const CommandPoolCreateInfo, Allocator, *mut u64) -> i32;
        destroy_command_pool = c"vkDestroyCommandPool" (usize, u64, Allocator);
        allocate_command_buffers = c"vkAllocateCommandBuffers"
            (usize, *const CommandBufferAllocateInfo, *mut usize) -> i32;
        begin_command_buffer = c"vkBeginCommandBuffer" (usize, *const CommandBufferBeginInfo) -> i32;
        end_command_buffer = c"vkEndCommandBuffer" (usize) -> i32;
        queue_submit = c"vkQueueSubmit" (usize, u32, *const SubmitInfo, u64) -> i32;
        queue_wait_idle = c"vkQueueWaitIdle" (usize) -> i32;
        get_image_subresource_layout = c"vkGetImageSubresourceLayout"
            (usize, u64, *const ImageSubresource, *mut SubresourceLayout);
        cmd_pipeline_barrier = c"vkCmdPipelineBarrier" (usize, u32, u32, u32, u32, *const MemoryBarrier, u32,
            *const c_void, u32, *const ImageMemoryBarrier);
        cmd_copy_buffer = c"vkCmdCopyBuffer" (usize, u64, u64, u32, *const BufferCopy);
        cmd_copy_image = c"vkCmdCopyImage" (usize, u64, i32, u64, i32, u32, *const ImageCopy);
        cmd_copy_buffer_to_image = c"vkCmdCopyBufferToImage" (usize, u64, u64, i32, u32, *const BufferImageCopy);
        cmd_copy_image_to_buffer = c"vkCmdCopyImageToBuffer" (usize, u64, i32, u64, u32, *const BufferImageCopy);

        create_image_view = c"vkCreateImageView" (usize, *const ImageViewCreateInfo, Allocator, *mut u64) -> i32;
        destroy_image_view = c"vkDestroyImageView" (usize, u64, Allocator);
        create_sampler = c"vkCreateSampler" (usize, *const SamplerCreateInfo, Allocator, *mut u64) -> i32;
        destroy_sampler = c"vkDestroySampler" (usize, u64, Allocator);
        create_descriptor_set_layout = c"vkCreateDescriptorSetLayout"
            (usize, *const DescriptorSetLayoutCreateInfo, Allocator, *mut u64) -> i32;
        destroy_descriptor_set_layout = c"vkDestroyDescriptorSetLayout" (usize, u64, Allocator);
        create_descriptor_pool = c"vkCreateDescriptorPool"
            (usize, *const DescriptorPoolCreateInfo, Allocator, *mut u64) -> i32;
        destroy_descriptor_pool = c"vkDestroyDescriptorPool" (usize, u64, Allocator);
        allocate_descriptor_sets = c"vkAllocateDescriptorSets"
            (usize, *const DescriptorSetAllocateInfo, *mut u64) -> i32;
        update_descriptor_sets = c"vkUpdateDescriptorSets"
            (usize, u32, *const WriteDescriptorSet, u32, *const c_void);
        create_render_pass = c"vkCreateRenderPass" (usize, *const RenderPassCreateInfo, Allocator, *mut u64) -> i32;
        destroy_render_pass = c"vkDestroyRenderPass" (usize, u64, Allocator);
        create_framebuffer = c"vkCreateFramebuffer" (usize, *const FramebufferCreateInfo, Allocator, *mut u64) -> i32;
        destroy_framebuffer = c"vkDestroyFramebuffer" (usize, u64, Allocator);
        create_shader_module = c"vkCreateShaderModule"
            (usize, *const ShaderModuleCreateInfo, Allocator, *mut u64) -> i32;
        destroy_shader_module = c"vkDestroyShaderModule" (usize, u64, Allocator);
        create_pipeline_layout = c"vkCreatePipelineLayout"
            (usize, *const PipelineLayoutCreateInfo, Allocator, *mut u64) -> i32;
        destroy_pipeline_layout = c"vkDestroyPipelineLayout" (usize, u64, Allocator);
        create_graphics_pipelines = c"vkCreateGraphicsPipelines"
            (usize, u64, u32, *const GraphicsPipelineCreateInfo, Allocator, *mut u64) -> i32;
        destroy_pipeline = c"vkDestroyPipeline" (usize, u64, Allocator);
        cmd_begin_render_pass = c"vkCmdBeginRenderPass" (usize, *const RenderPassBeginInfo, i32);
        cmd_end_render_pass = c"vkCmdEndRenderPass" (usize);
        cmd_bind_pipeline = c"vkCmdBindPipeline" (usize, i32, u64);
        cmd_bind_descriptor_sets = c"vkCmdBindDescriptorSets" (usize, i32, u64, u32, u32, *const u64, u32, *const u32);
        cmd_bind_vertex_buffers = c"vkCmdBindVertexBuffers" (usize, u32, u32, *const u64, *const u64);
        cmd_draw = c"vkCmdDraw" (usize, u32, u32, u32, u32);
    }
}

pub const FORMAT_R8G8B8A8_UNORM: i32 = 37;
pub const FORMAT_R32G32_SFLOAT: i32 = 103;
pub const TYPE_2D: i32 = 1;
pub const ASPECT_COLOR: u32 = 1;

pub const BUFFER_TRANSFER_SRC: u32 = 0x01;
pub const BUFFER_TRANSFER_DST: u32 = 0x02;
pub const BUFFER_VERTEX: u32 = 0x80;
pub const BUFFER_SHADER_DEVICE_ADDRESS: u32 = 0x20000;
pub const IMAGE_TRANSFER_SRC: u32 = 0x01;
pub const IMAGE_TRANSFER_DST: u32 = 0x02;
pub const IMAGE_SAMPLED: u32 = 0x04;
pub const IMAGE_COLOR_ATTACHMENT: u32 = 0x10;

pub const LAYOUT_UNDEFINED: i32 = 0;
pub const LAYOUT_GENERAL: i32 = 1;
pub const LAYOUT_COLOR_ATTACHMENT: i32 = 2;
pub const LAYOUT_SHADER_READ_ONLY: i32 = 5;
pub const LAYOUT_TRANSFER_SRC: i32 = 6;
pub const LAYOUT_TRANSFER_DST: i32 = 7;
pub const LAYOUT_PREINITIALIZED: i32 = 8;

pub const STAGE_TOP_OF_PIPE: u32 = 0x1;
pub const STAGE_VERTEX_INPUT: u32 = 0x4;
pub const STAGE_FRAGMENT_SHADER: u32 = 0x80;
pub const STAGE_COLOR_ATTACHMENT_OUTPUT: u32 = 0x400;
pub const STAGE_TRANSFER: u32 = 0x1000;
pub const STAGE_HOST: u32 = 0x4000;
pub const STAGE_ALL_COMMANDS: u32 = 0x10000;

pub const ACCESS_VERTEX_ATTRIBUTE_READ: u32 = 0x4;
pub const ACCESS_SHADER_READ: u32 = 0x20;
pub const ACCESS_COLOR_ATTACHMENT_WRITE: u32 = 0x100;
pub const ACCESS_TRANSFER_READ: u32 = 0x800;
pub const ACCESS_TRANSFER_WRITE: u32 = 0x1000;
pub const ACCESS_HOST_READ: u32 = 0x2000;
pub const ACCESS_HOST_WRITE: u32 = 0x4000;
pub const ACCESS_MEMORY_WRITE: u32 = 0x10000;

pub const SHADER_VERTEX: u32 = 0x01;
pub const SHADER_FRAGMENT: u32 = 0x10;
pub const DESCRIPTOR_COMBINED_IMAGE_SAMPLER: i32 = 1;
pub const LOAD_OP_CLEAR: i32 = 1;
pub const TRIANGLE_LIST: i32 = 3;
/// `VK_SUBPASS_EXTERNAL`, and `VK_QUEUE_FAMILY_IGNORED`.
pub const NONE: u32 = !0;

/// All of an image of one level and one layer.
pub const WHOLE: ImageSubresourceRange = ImageSubresourceRange {
    aspect_mask: ASPECT_COLOR,
    base_mip_level: 0,
    level_count: 1,
    base_array_layer: 0,
    layer_count: 1,
};

/// The one level of such an image.
pub const LEVEL: ImageSubresourceLayers =
    ImageSubresourceLayers { aspect_mask: ASPECT_COLOR, mip_level: 0, base_array_layer: 0, layer_count: 1 };

extern "C" {
    fn dlopen(file: *const c_char, flags: c_int) -> *mut c_void;
    fn dlsym(library: *mut c_void, name: *const c_char) -> *mut c_void;
}

/// `vkGetInstanceProcAddr` of `libvulkan.so.1`, which stays loaded; `None` where there is no such library.
pub fn get_instance_proc_addr() -> Option<GetInstanceProcAddr> {
    const RTLD_NOW: c_int = 2;
    // SAFETY: both names end by a zero, and the function has that type.
    unsafe {
        let library = dlopen(c"libvulkan.so.1".as_ptr(), RTLD_NOW);
        if library.is_null() {
            return None;
        }
        let found = dlsym(library, c"vkGetInstanceProcAddr".as_ptr());
        std::mem::transmute::<*mut c_void, Option<GetInstanceProcAddr>>(found)
    }
}
