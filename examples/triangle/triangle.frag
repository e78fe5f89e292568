#version 450

layout(binding = 0) uniform sampler2D checkerboard;

layout(location = 0) in vec2 uv;

layout(location = 0) out vec4 colour;

void main()
{
    colour = texture(checkerboard, uv);
}
