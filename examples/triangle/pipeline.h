/* What the drawing needs beside the resources: how the triangle's pixels are made of vertices and texels. */
#ifndef PIPELINE_H
#define PIPELINE_H

#include "triangle.h"

typedef struct pipeline {
    VkImageView texture, target;
    VkSampler sampler;
    VkDescriptorSetLayout set_layout;
    VkDescriptorPool pool;
    VkDescriptorSet set;
    VkRenderPass pass;
    VkFramebuffer framebuffer;
    VkPipelineLayout layout;
    VkPipeline handle;
} pipeline;

void create_pipeline(VkDevice device, const resources *r, pipeline *p);
void destroy_pipeline(VkDevice device, const pipeline *p);

#endif
