#include "pipeline.h"

#include <stddef.h>

static const uint32_t VERTEX_SHADER[] = {
#include "triangle.vert.spv.inc"
};
static const uint32_t FRAGMENT_SHADER[] = {
#include "triangle.frag.spv.inc"
};

static VkImageView view_of(VkDevice device, VkImage image)
{
    const VkImageViewCreateInfo info = {
        .sType = VK_STRUCTURE_TYPE_IMAGE_VIEW_CREATE_INFO,
        .image = image,
        .viewType = VK_IMAGE_VIEW_TYPE_2D,
        .format = VK_FORMAT_R8G8B8A8_UNORM,
        .subresourceRange = {VK_IMAGE_ASPECT_COLOR_BIT, 0, 1, 0, 1},
    };
    VkImageView view;
    MUST(vkCreateImageView(device, &info, NULL, &view));
    return view;
}

/* The fragment shader's texture, with nearest texels. */
static void create_set(VkDevice device, pipeline *p)
{
    const VkSamplerCreateInfo sampler = {.sType = VK_STRUCTURE_TYPE_SAMPLER_CREATE_INFO};
    const VkDescriptorSetLayoutBinding binding = {
        0, VK_DESCRIPTOR_TYPE_COMBINED_IMAGE_SAMPLER, 1, VK_SHADER_STAGE_FRAGMENT_BIT, NULL,
    };
    const VkDescriptorSetLayoutCreateInfo layout = {
        .sType = VK_STRUCTURE_TYPE_DESCRIPTOR_SET_LAYOUT_CREATE_INFO,
        .bindingCount = 1,
        .pBindings = &binding,
    };
    const VkDescriptorPoolSize size = {VK_DESCRIPTOR_TYPE_COMBINED_IMAGE_SAMPLER, 1};
    const VkDescriptorPoolCreateInfo pool = {
        .sType = VK_STRUCTURE_TYPE_DESCRIPTOR_POOL_CREATE_INFO,
        .maxSets = 1,
        .poolSizeCount = 1,
        .pPoolSizes = &size,
    };
    MUST(vkCreateSampler(device, &sampler, NULL, &p->sampler));
    MUST(vkCreateDescriptorSetLayout(device, &layout, NULL, &p->set_layout));
    MUST(vkCreateDescriptorPool(device, &pool, NULL, &p->pool));
    const VkDescriptorSetAllocateInfo set = {
        VK_STRUCTURE_TYPE_DESCRIPTOR_SET_ALLOCATE_INFO, NULL, p->pool, 1, &p->set_layout,
    };
    MUST(vkAllocateDescriptorSets(device, &set, &p->set));
    const VkDescriptorImageInfo image = {p->sampler, p->texture, VK_IMAGE_LAYOUT_SHADER_READ_ONLY_OPTIMAL};
    const VkWriteDescriptorSet write = {
        .sType = VK_STRUCTURE_TYPE_WRITE_DESCRIPTOR_SET,
        .dstSet = p->set,
        .descriptorCount = 1,
        .descriptorType = VK_DESCRIPTOR_TYPE_COMBINED_IMAGE_SAMPLER,
        .pImageInfo = &image,
    };
    vkUpdateDescriptorSets(device, 1, &write, 0, NULL);
}

/* It clears the target, and leaves it to be copied from. */
static void create_pass(VkDevice device, pipeline *p)
{
    const VkAttachmentDescription target = {
        .format = VK_FORMAT_R8G8B8A8_UNORM,
        .samples = VK_SAMPLE_COUNT_1_BIT,
        .loadOp = VK_ATTACHMENT_LOAD_OP_CLEAR,
        .storeOp = VK_ATTACHMENT_STORE_OP_STORE,
        .finalLayout = VK_IMAGE_LAYOUT_TRANSFER_SRC_OPTIMAL,
    };
    const VkAttachmentReference colour = {0, VK_IMAGE_LAYOUT_COLOR_ATTACHMENT_OPTIMAL};
    const VkSubpassDescription subpass = {.colorAttachmentCount = 1, .pColorAttachments = &colour};
    const VkSubpassDependency copied_after = {
        .srcSubpass = 0,
        .dstSubpass = VK_SUBPASS_EXTERNAL,
        .srcStageMask = VK_PIPELINE_STAGE_COLOR_ATTACHMENT_OUTPUT_BIT,
        .dstStageMask = VK_PIPELINE_STAGE_TRANSFER_BIT,
        .srcAccessMask = VK_ACCESS_COLOR_ATTACHMENT_WRITE_BIT,
        .dstAccessMask = VK_ACCESS_TRANSFER_READ_BIT,
    };
    const VkRenderPassCreateInfo info = {
        .sType = VK_STRUCTURE_TYPE_RENDER_PASS_CREATE_INFO,
        .attachmentCount = 1,
        .pAttachments = &target,
        .subpassCount = 1,
        .pSubpasses = &subpass,
        .dependencyCount = 1,
        .pDependencies = &copied_after,
    };
    MUST(vkCreateRenderPass(device, &info, NULL, &p->pass));
    const VkFramebufferCreateInfo framebuffer = {
        .sType = VK_STRUCTURE_TYPE_FRAMEBUFFER_CREATE_INFO,
        .renderPass = p->pass,
        .attachmentCount = 1,
        .pAttachments = &p->target,
        .width = TARGET_SIDE,
        .height = TARGET_SIDE,
        .layers = 1,
    };
    MUST(vkCreateFramebuffer(device, &framebuffer, NULL, &p->framebuffer));
}

static VkPipelineShaderStageCreateInfo stage_of(VkDevice device, VkShaderStageFlagBits stage, const uint32_t *words,
                                                size_t size)
{
    const VkShaderModuleCreateInfo info = {
        .sType = VK_STRUCTURE_TYPE_SHADER_MODULE_CREATE_INFO,
        .codeSize = size,
        .pCode = words,
    };
    VkPipelineShaderStageCreateInfo made = {
        .sType = VK_STRUCTURE_TYPE_PIPELINE_SHADER_STAGE_CREATE_INFO,
        .stage = stage,
        .pName = "main",
    };
    MUST(vkCreateShaderModule(device, &info, NULL, &made.module));
    return made;
}

static void create_handle(VkDevice device, pipeline *p)
{
    const VkPipelineLayoutCreateInfo layout = {
        .sType = VK_STRUCTURE_TYPE_PIPELINE_LAYOUT_CREATE_INFO,
        .setLayoutCount = 1,
        .pSetLayouts = &p->set_layout,
    };
    const VkPipelineShaderStageCreateInfo stages[] = {
        stage_of(device, VK_SHADER_STAGE_VERTEX_BIT, VERTEX_SHADER, sizeof VERTEX_SHADER),
        stage_of(device, VK_SHADER_STAGE_FRAGMENT_BIT, FRAGMENT_SHADER, sizeof FRAGMENT_SHADER),
    };
    const VkVertexInputBindingDescription binding = {0, sizeof(vertex), VK_VERTEX_INPUT_RATE_VERTEX};
    const VkVertexInputAttributeDescription attributes[] = {
        {0, 0, VK_FORMAT_R32G32_SFLOAT, offsetof(vertex, position)},
        {1, 0, VK_FORMAT_R32G32_SFLOAT, offsetof(vertex, uv)},
    };
    const VkPipelineVertexInputStateCreateInfo input = {
        .sType = VK_STRUCTURE_TYPE_PIPELINE_VERTEX_INPUT_STATE_CREATE_INFO,
        .vertexBindingDescriptionCount = 1,
        .pVertexBindingDescriptions = &binding,
        .vertexAttributeDescriptionCount = 2,
        .pVertexAttributeDescriptions = attributes,
    };
    const VkPipelineInputAssemblyStateCreateInfo assembly = {
        .sType = VK_STRUCTURE_TYPE_PIPELINE_INPUT_ASSEMBLY_STATE_CREATE_INFO,
        .topology = VK_PRIMITIVE_TOPOLOGY_TRIANGLE_LIST,
    };
    const VkViewport all = {0, 0, TARGET_SIDE, TARGET_SIDE, 0, 1};
    const VkRect2D scissor = {{0, 0}, {TARGET_SIDE, TARGET_SIDE}};
    const VkPipelineViewportStateCreateInfo viewport = {
        .sType = VK_STRUCTURE_TYPE_PIPELINE_VIEWPORT_STATE_CREATE_INFO,
        .viewportCount = 1,
        .pViewports = &all,
        .scissorCount = 1,
        .pScissors = &scissor,
    };
    const VkPipelineRasterizationStateCreateInfo rasterization = {
        .sType = VK_STRUCTURE_TYPE_PIPELINE_RASTERIZATION_STATE_CREATE_INFO,
        .lineWidth = 1,
    };
    const VkPipelineMultisampleStateCreateInfo samples = {
        .sType = VK_STRUCTURE_TYPE_PIPELINE_MULTISAMPLE_STATE_CREATE_INFO,
        .rasterizationSamples = VK_SAMPLE_COUNT_1_BIT,
    };
    const VkPipelineColorBlendAttachmentState channels = {.colorWriteMask = 0xf};
    const VkPipelineColorBlendStateCreateInfo blend = {
        .sType = VK_STRUCTURE_TYPE_PIPELINE_COLOR_BLEND_STATE_CREATE_INFO,
        .attachmentCount = 1,
        .pAttachments = &channels,
    };
    MUST(vkCreatePipelineLayout(device, &layout, NULL, &p->layout));
    const VkGraphicsPipelineCreateInfo info = {
        .sType = VK_STRUCTURE_TYPE_GRAPHICS_PIPELINE_CREATE_INFO,
        .stageCount = 2,
        .pStages = stages,
        .pVertexInputState = &input,
        .pInputAssemblyState = &assembly,
        .pViewportState = &viewport,
        .pRasterizationState = &rasterization,
        .pMultisampleState = &samples,
        .pColorBlendState = &blend,
        .layout = p->layout,
        .renderPass = p->pass,
    };
    MUST(vkCreateGraphicsPipelines(device, VK_NULL_HANDLE, 1, &info, NULL, &p->handle));
    vkDestroyShaderModule(device, stages[0].module, NULL);
    vkDestroyShaderModule(device, stages[1].module, NULL);
}

void create_pipeline(VkDevice device, const resources *r, pipeline *p)
{
    p->texture = view_of(device, r->texture);
    p->target = view_of(device, r->target);
    create_set(device, p);
    create_pass(device, p);
    create_handle(device, p);
}

void destroy_pipeline(VkDevice device, const pipeline *p)
{
    vkDestroyPipeline(device, p->handle, NULL);
    vkDestroyPipelineLayout(device, p->layout, NULL);
    vkDestroyFramebuffer(device, p->framebuffer, NULL);
    vkDestroyRenderPass(device, p->pass, NULL);
    vkDestroyDescriptorPool(device, p->pool, NULL);
    vkDestroyDescriptorSetLayout(device, p->set_layout, NULL);
    vkDestroySampler(device, p->sampler, NULL);
    vkDestroyImageView(device, p->target, NULL);
    vkDestroyImageView(device, p->texture, NULL);
}
