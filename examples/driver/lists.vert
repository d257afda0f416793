#version 450

layout(push_constant) uniform Push { float scale; uint width, room; };
layout(location = 0) in vec2 place; // in 1/256 pixel
layout(location = 0) flat out uint primitive; // gl_PrimitiveID would need the feature geometryShader

void main()
{
    primitive = uint(gl_VertexIndex) / 3;
    gl_Position = vec4(place * scale, 0.5, 1);
}
