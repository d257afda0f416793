#version 450

struct Node { uint next, primitive, mask; };

layout(push_constant) uniform Push { float scale; uint width, room; };
layout(location = 0) flat in uint primitive;
layout(binding = 0, std430) buffer Count { uint count; };
layout(binding = 1, std430) buffer Heads { uint heads[]; };
layout(binding = 2, std430) buffer Nodes { Node nodes[]; };

void main()
{
    uint node = atomicAdd(count, 1);
    if (node < room) {
        uvec2 pixel = uvec2(gl_FragCoord.xy);
        uint next = atomicExchange(heads[pixel.y * width + pixel.x], node + 1);
        nodes[node] = Node(next, primitive, uint(gl_SampleMaskIn[0]));
    }
}
