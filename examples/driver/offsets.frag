#version 450

// Runs once for each sample, and writes where the samples of the first pixel lie.

layout(location = 0) flat in uint primitive;
layout(binding = 2, std430) buffer Places { vec2 places[]; };

void main()
{
    if (uvec2(gl_FragCoord.xy) == uvec2(0))
        places[gl_SampleID] = gl_SamplePosition;
}
