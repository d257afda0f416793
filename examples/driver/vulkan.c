/* The rasterizer of a Vulkan 1.0 driver that has the feature fragmentStoresAndAtomics. No extension is used.

   All triangles are drawn at once. The fragment shader puts each fragment, with its primitive number and its mask of
   samples, into the list of its pixel by atomic steps, and the lists are read back. What is made for a draw is left to
   the end of the process, but for buffers, which may be large. */

#include <err.h>
#include <string.h>
#include <vulkan/vulkan.h>

#include "driver.h"
#include "lists.frag.h"
#include "lists.vert.h"
#include "offsets.frag.h"

enum { FIRST_ROOM = 65536, BUFFERS = 3 };

typedef struct { VkBuffer buffer; VkDeviceMemory memory; void *map; } Buffer;

/* A render pass with what it draws into, and the pipelines that draw there. */
typedef struct {
    int width, height, samples;
    VkRenderPass pass;
    VkFramebuffer framebuffer;
    VkPipeline lists;
} Target;

/* What the shader is told, as in lists.vert and lists.frag. */
typedef struct { float scale; uint32_t width, room; } Push;

static VkPhysicalDevice physical;
static VkPhysicalDeviceProperties properties;
static VkPhysicalDeviceFeatures features;
static VkPhysicalDeviceMemoryProperties memory_properties;
static VkDevice device;
static VkQueue queue;
static VkCommandPool commands;
static VkDescriptorSet buffer_set;
static VkPipelineLayout layout;
static Attachment attachment;
static int viewport_side;

#define MUST(call) must(call, #call)

static void must(VkResult result, const char *call)
{
    if (result != VK_SUCCESS)
        errx(2, "the driver answers %d to %.*s", result, (int)strcspn(call, "("), call);
}

/* ---- opening */

static VkInstance make_instance(void)
{
    VkInstance instance;
    uint32_t version = VK_API_VERSION_1_0;
    PFN_vkEnumerateInstanceVersion tell_version =
        (PFN_vkEnumerateInstanceVersion)vkGetInstanceProcAddr(NULL, "vkEnumerateInstanceVersion");
    if (tell_version)
        MUST(tell_version(&version));
    /* Only the driver's name needs more than 1.0, and is told where there is more. */
    VkApplicationInfo app = {.sType = VK_STRUCTURE_TYPE_APPLICATION_INFO,
                             .apiVersion = version < VK_API_VERSION_1_2 ? VK_API_VERSION_1_0 : VK_API_VERSION_1_2};
    VkInstanceCreateInfo info = {.sType = VK_STRUCTURE_TYPE_INSTANCE_CREATE_INFO, .pApplicationInfo = &app};
    VkResult result = vkCreateInstance(&info, NULL, &instance);
    if (result == VK_ERROR_INCOMPATIBLE_DRIVER)
        errx(2, "there is no Vulkan driver; on Debian, install mesa-vulkan-drivers or set VK_ICD_FILENAMES");
    must(result, "vkCreateInstance");
    return instance;
}

static uint32_t graphics_family(void)
{
    VkQueueFamilyProperties families[32];
    uint32_t count = 32;
    vkGetPhysicalDeviceQueueFamilyProperties(physical, &count, families);
    for (uint32_t n = 0; n < count; n++)
        if (families[n].queueFlags & VK_QUEUE_GRAPHICS_BIT)
            return n;
    errx(NOT_SUPPORTED, "the device has no queue for graphics");
}

static void make_device(uint32_t family)
{
    float priority = 1;
    VkPhysicalDeviceFeatures wanted = {.fragmentStoresAndAtomics = VK_TRUE,
                                       .sampleRateShading = features.sampleRateShading};
    VkDeviceQueueCreateInfo queue_info = {.sType = VK_STRUCTURE_TYPE_DEVICE_QUEUE_CREATE_INFO,
                                          .queueFamilyIndex = family, .queueCount = 1, .pQueuePriorities = &priority};
    VkDeviceCreateInfo info = {.sType = VK_STRUCTURE_TYPE_DEVICE_CREATE_INFO, .queueCreateInfoCount = 1,
                               .pQueueCreateInfos = &queue_info, .pEnabledFeatures = &wanted};
    VkCommandPoolCreateInfo pool_info = {.sType = VK_STRUCTURE_TYPE_COMMAND_POOL_CREATE_INFO,
                                         .queueFamilyIndex = family};
    MUST(vkCreateDevice(physical, &info, NULL, &device));
    vkGetDeviceQueue(device, family, 0, &queue);
    MUST(vkCreateCommandPool(device, &pool_info, NULL, &commands));
}

static void make_layout(void)
{
    VkDescriptorSetLayout set_layout;
    VkDescriptorPool pool;
    VkDescriptorSetLayoutBinding bindings[BUFFERS];
    for (uint32_t n = 0; n < BUFFERS; n++)
        bindings[n] = (VkDescriptorSetLayoutBinding){n, VK_DESCRIPTOR_TYPE_STORAGE_BUFFER, 1,
                                                     VK_SHADER_STAGE_FRAGMENT_BIT, NULL};
    VkDescriptorSetLayoutCreateInfo set_info = {.sType = VK_STRUCTURE_TYPE_DESCRIPTOR_SET_LAYOUT_CREATE_INFO,
                                                .bindingCount = BUFFERS, .pBindings = bindings};
    VkDescriptorPoolSize size = {VK_DESCRIPTOR_TYPE_STORAGE_BUFFER, BUFFERS};
    VkDescriptorPoolCreateInfo pool_info = {.sType = VK_STRUCTURE_TYPE_DESCRIPTOR_POOL_CREATE_INFO, .maxSets = 1,
                                            .poolSizeCount = 1, .pPoolSizes = &size};
    VkPushConstantRange range = {VK_SHADER_STAGE_VERTEX_BIT | VK_SHADER_STAGE_FRAGMENT_BIT, 0, sizeof(Push)};
    MUST(vkCreateDescriptorSetLayout(device, &set_info, NULL, &set_layout));
    MUST(vkCreateDescriptorPool(device, &pool_info, NULL, &pool));
    VkDescriptorSetAllocateInfo allocate_info = {.sType = VK_STRUCTURE_TYPE_DESCRIPTOR_SET_ALLOCATE_INFO,
                                                 .descriptorPool = pool, .descriptorSetCount = 1,
                                                 .pSetLayouts = &set_layout};
    VkPipelineLayoutCreateInfo layout_info = {.sType = VK_STRUCTURE_TYPE_PIPELINE_LAYOUT_CREATE_INFO,
                                              .setLayoutCount = 1, .pSetLayouts = &set_layout,
                                              .pushConstantRangeCount = 1, .pPushConstantRanges = &range};
    MUST(vkAllocateDescriptorSets(device, &allocate_info, &buffer_set));
    MUST(vkCreatePipelineLayout(device, &layout_info, NULL, &layout));
}

/* The greatest power of two that the viewport may be large, with the image's top left as its centre. */
static int greatest_viewport(void)
{
    const VkPhysicalDeviceLimits *limits = &properties.limits;
    const uint32_t *most = limits->maxViewportDimensions;
    uint32_t side = 1;
    while (2 * side <= most[0] && 2 * side <= most[1] && side <= -limits->viewportBoundsRange[0])
        side *= 2;
    return side;
}

static VkFormat attachment_format(void)
{
    return attachment == BGRA8 ? VK_FORMAT_B8G8R8A8_UNORM : VK_FORMAT_R8G8B8A8_UNORM;
}

/* The counts of samples that abuf has a pattern of, and whose places are the standard ones. */
static uint32_t known_counts(VkSampleCountFlags counts)
{
    return counts & (properties.limits.standardSampleLocations ? 1u | 2 | 4 | 8 | 16 : 1u);
}

static uint32_t counts_of_format(VkFormat format)
{
    VkImageFormatProperties image;
    VkResult result = vkGetPhysicalDeviceImageFormatProperties(physical, format, VK_IMAGE_TYPE_2D,
                                                               VK_IMAGE_TILING_OPTIMAL,
                                                               VK_IMAGE_USAGE_COLOR_ATTACHMENT_BIT, 0, &image);
    return result == VK_SUCCESS
               ? known_counts(image.sampleCounts & properties.limits.framebufferColorSampleCounts) : 0;
}

/* Names that a driver has told since Vulkan 1.2. */
static void tell_names(VkInstance instance, Driver *driver)
{
    const char *info = "";
    VkPhysicalDeviceDriverProperties names = {.sType = VK_STRUCTURE_TYPE_PHYSICAL_DEVICE_DRIVER_PROPERTIES};
    VkPhysicalDeviceProperties2 more = {.sType = VK_STRUCTURE_TYPE_PHYSICAL_DEVICE_PROPERTIES_2, .pNext = &names};
    PFN_vkGetPhysicalDeviceProperties2 tell =
        (PFN_vkGetPhysicalDeviceProperties2)vkGetInstanceProcAddr(instance, "vkGetPhysicalDeviceProperties2");
    if (tell && properties.apiVersion >= VK_API_VERSION_1_2) {
        tell(physical, &more);
        info = names.driverInfo;
    }
    snprintf(driver->name, sizeof driver->name, "%s", *names.driverName ? names.driverName : properties.deviceName);
    snprintf(driver->version, sizeof driver->version, "%s%s0x%x", info, *info ? ", " : "", properties.driverVersion);
    snprintf(driver->device, sizeof driver->device, "%s", properties.deviceName);
    snprintf(driver->interface, sizeof driver->interface, "Vulkan %u.%u.%u",
             VK_VERSION_MAJOR(properties.apiVersion), VK_VERSION_MINOR(properties.apiVersion),
             VK_VERSION_PATCH(properties.apiVersion));
}

static Driver driver_of(VkInstance instance)
{
    const VkPhysicalDeviceLimits *limits = &properties.limits;
    const uint32_t sides[] = {limits->maxFramebufferWidth, limits->maxFramebufferHeight, limits->maxImageDimension2D};
    Driver driver = {.subpixel_bits = limits->subPixelPrecisionBits, .viewport = viewport_side,
                     .most_side = sides[0], .most_bytes = limits->maxStorageBufferRange};
    for (int n = 1; n < 3; n++)
        if (sides[n] < (uint32_t)driver.most_side)
            driver.most_side = sides[n];
    driver.counts[NO_ATTACHMENT] = known_counts(limits->framebufferNoAttachmentsSampleCounts);
    driver.counts[RGBA8] = counts_of_format(VK_FORMAT_R8G8B8A8_UNORM);
    driver.counts[BGRA8] = counts_of_format(VK_FORMAT_B8G8R8A8_UNORM);
    /* Vulkan's flag of a number of samples is that number; here it is the bit of that place. */
    for (int n = 0; n < ATTACHMENTS; n++) {
        uint32_t flags = driver.counts[n];
        driver.counts[n] = 0;
        for (int samples = 1; samples <= MOST_SAMPLES; samples *= 2)
            driver.counts[n] |= flags & samples ? 1u << samples : 0;
    }
    tell_names(instance, &driver);
    return driver;
}

Driver open_driver(const Choice *choice)
{
    VkPhysicalDevice devices[32];
    uint32_t count = 32;
    VkInstance instance = make_instance();
    if (choice->fault)
        errx(2, "only `exact` has faults to plant");
    VkResult result = vkEnumeratePhysicalDevices(instance, &count, devices);
    if (result == VK_ERROR_INITIALIZATION_FAILED || (result == VK_SUCCESS && count == 0))
        errx(2, "the Vulkan driver finds no device of its own on this machine");
    must(result, "vkEnumeratePhysicalDevices");
    if ((uint32_t)choice->device >= count)
        errx(2, "there is no device %d of Vulkan, but %u of them", choice->device, count);
    physical = devices[choice->device];
    attachment = choice->attachment;
    vkGetPhysicalDeviceProperties(physical, &properties);
    vkGetPhysicalDeviceFeatures(physical, &features);
    vkGetPhysicalDeviceMemoryProperties(physical, &memory_properties);
    viewport_side = greatest_viewport();
    if (choice->viewport > viewport_side)
        errx(NOT_SUPPORTED, "the driver's viewport is at most %d pixels large", viewport_side);
    if (choice->viewport)
        viewport_side = choice->viewport;
    if (!features.fragmentStoresAndAtomics)
        errx(NOT_SUPPORTED, "the device lacks the feature fragmentStoresAndAtomics");
    make_device(graphics_family());
    make_layout();
    return driver_of(instance);
}

Order image_order(void)
{
    return (Order){0};
}

/* ---- memory */

static VkDeviceMemory allocate_memory(const VkMemoryRequirements *needs, VkMemoryPropertyFlags flags)
{
    VkDeviceMemory memory;
    for (uint32_t n = 0; n < memory_properties.memoryTypeCount; n++)
        if (needs->memoryTypeBits >> n & 1 && (memory_properties.memoryTypes[n].propertyFlags & flags) == flags) {
            VkMemoryAllocateInfo info = {.sType = VK_STRUCTURE_TYPE_MEMORY_ALLOCATE_INFO,
                                         .allocationSize = needs->size, .memoryTypeIndex = n};
            MUST(vkAllocateMemory(device, &info, NULL, &memory));
            return memory;
        }
    errx(2, "the driver has no memory of the type that is needed");
}

/* A buffer of zeros that both sides see. */
static Buffer make_buffer(size_t size, VkBufferUsageFlags usage)
{
    Buffer made;
    VkMemoryRequirements needs;
    VkBufferCreateInfo info = {.sType = VK_STRUCTURE_TYPE_BUFFER_CREATE_INFO, .size = size ? size : 4, .usage = usage};
    MUST(vkCreateBuffer(device, &info, NULL, &made.buffer));
    vkGetBufferMemoryRequirements(device, made.buffer, &needs);
    made.memory = allocate_memory(&needs, VK_MEMORY_PROPERTY_HOST_VISIBLE_BIT | VK_MEMORY_PROPERTY_HOST_COHERENT_BIT);
    MUST(vkBindBufferMemory(device, made.buffer, made.memory, 0));
    MUST(vkMapMemory(device, made.memory, 0, VK_WHOLE_SIZE, 0, &made.map));
    memset(made.map, 0, info.size);
    return made;
}

static void free_buffer(Buffer *buffer)
{
    vkDestroyBuffer(device, buffer->buffer, NULL);
    vkFreeMemory(device, buffer->memory, NULL);
}

static void bind_buffers(const Buffer *buffers)
{
    VkDescriptorBufferInfo infos[BUFFERS];
    VkWriteDescriptorSet writes[BUFFERS];
    for (uint32_t n = 0; n < BUFFERS; n++) {
        infos[n] = (VkDescriptorBufferInfo){buffers[n].buffer, 0, VK_WHOLE_SIZE};
        writes[n] = (VkWriteDescriptorSet){.sType = VK_STRUCTURE_TYPE_WRITE_DESCRIPTOR_SET, .dstSet = buffer_set,
                                           .dstBinding = n, .descriptorCount = 1,
                                           .descriptorType = VK_DESCRIPTOR_TYPE_STORAGE_BUFFER,
                                           .pBufferInfo = &infos[n]};
    }
    vkUpdateDescriptorSets(device, BUFFERS, writes, 0, NULL);
}

/* ---- what is drawn into */

static VkImageView make_image(const Target *target)
{
    VkImage image;
    VkImageView view;
    VkMemoryRequirements needs;
    VkImageCreateInfo info = {.sType = VK_STRUCTURE_TYPE_IMAGE_CREATE_INFO, .imageType = VK_IMAGE_TYPE_2D,
                              .format = attachment_format(), .extent = {target->width, target->height, 1},
                              .mipLevels = 1, .arrayLayers = 1, .samples = target->samples,
                              .usage = VK_IMAGE_USAGE_COLOR_ATTACHMENT_BIT};
    MUST(vkCreateImage(device, &info, NULL, &image));
    vkGetImageMemoryRequirements(device, image, &needs);
    MUST(vkBindImageMemory(device, image, allocate_memory(&needs, 0), 0));
    VkImageViewCreateInfo view_info = {.sType = VK_STRUCTURE_TYPE_IMAGE_VIEW_CREATE_INFO, .image = image,
                                       .viewType = VK_IMAGE_VIEW_TYPE_2D, .format = info.format,
                                       .subresourceRange = {VK_IMAGE_ASPECT_COLOR_BIT, 0, 1, 0, 1}};
    MUST(vkCreateImageView(device, &view_info, NULL, &view));
    return view;
}

static void make_pass(Target *target)
{
    VkAttachmentDescription colour = {.format = attachment_format(), .samples = target->samples,
                                      .loadOp = VK_ATTACHMENT_LOAD_OP_DONT_CARE,
                                      .storeOp = VK_ATTACHMENT_STORE_OP_DONT_CARE,
                                      .stencilLoadOp = VK_ATTACHMENT_LOAD_OP_DONT_CARE,
                                      .stencilStoreOp = VK_ATTACHMENT_STORE_OP_DONT_CARE,
                                      .finalLayout = VK_IMAGE_LAYOUT_COLOR_ATTACHMENT_OPTIMAL};
    VkAttachmentReference reference = {0, VK_IMAGE_LAYOUT_COLOR_ATTACHMENT_OPTIMAL};
    uint32_t count = attachment != NO_ATTACHMENT;
    VkSubpassDescription subpass = {.pipelineBindPoint = VK_PIPELINE_BIND_POINT_GRAPHICS,
                                    .colorAttachmentCount = count, .pColorAttachments = &reference};
    VkRenderPassCreateInfo info = {.sType = VK_STRUCTURE_TYPE_RENDER_PASS_CREATE_INFO, .attachmentCount = count,
                                   .pAttachments = &colour, .subpassCount = 1, .pSubpasses = &subpass};
    MUST(vkCreateRenderPass(device, &info, NULL, &target->pass));
    VkImageView view = count ? make_image(target) : VK_NULL_HANDLE;
    VkFramebufferCreateInfo framebuffer = {.sType = VK_STRUCTURE_TYPE_FRAMEBUFFER_CREATE_INFO,
                                           .renderPass = target->pass, .attachmentCount = count,
                                           .pAttachments = &view, .width = target->width, .height = target->height,
                                           .layers = 1};
    MUST(vkCreateFramebuffer(device, &framebuffer, NULL, &target->framebuffer));
}

/* ---- pipelines */

static VkPipelineShaderStageCreateInfo make_stage(VkShaderStageFlagBits stage, const uint32_t *code, size_t size)
{
    VkShaderModule module;
    VkShaderModuleCreateInfo info = {.sType = VK_STRUCTURE_TYPE_SHADER_MODULE_CREATE_INFO, .codeSize = size,
                                     .pCode = code};
    MUST(vkCreateShaderModule(device, &info, NULL, &module));
    return (VkPipelineShaderStageCreateInfo){.sType = VK_STRUCTURE_TYPE_PIPELINE_SHADER_STAGE_CREATE_INFO,
                                             .stage = stage, .module = module, .pName = "main"};
}

/* A pipeline with this fragment shader. Both windings are drawn, and nothing is written to the attachment. */
static VkPipeline make_pipeline(const Target *target, const uint32_t *code, size_t size)
{
    VkPipeline pipeline;
    VkPipelineShaderStageCreateInfo stages[] = {
        make_stage(VK_SHADER_STAGE_VERTEX_BIT, lists_vert, sizeof lists_vert),
        make_stage(VK_SHADER_STAGE_FRAGMENT_BIT, code, size),
    };
    VkVertexInputBindingDescription binding = {0, 2 * sizeof(float), VK_VERTEX_INPUT_RATE_VERTEX};
    VkVertexInputAttributeDescription place = {0, 0, VK_FORMAT_R32G32_SFLOAT, 0};
    VkPipelineVertexInputStateCreateInfo input = {
        .sType = VK_STRUCTURE_TYPE_PIPELINE_VERTEX_INPUT_STATE_CREATE_INFO, .vertexBindingDescriptionCount = 1,
        .pVertexBindingDescriptions = &binding, .vertexAttributeDescriptionCount = 1,
        .pVertexAttributeDescriptions = &place};
    VkPipelineInputAssemblyStateCreateInfo assembly = {
        .sType = VK_STRUCTURE_TYPE_PIPELINE_INPUT_ASSEMBLY_STATE_CREATE_INFO,
        .topology = VK_PRIMITIVE_TOPOLOGY_TRIANGLE_LIST};
    float side = viewport_side;
    VkViewport viewport = {-side / 2, -side / 2, side, side, 0, 1};
    VkRect2D scissor = {{0, 0}, {target->width, target->height}};
    VkPipelineViewportStateCreateInfo views = {.sType = VK_STRUCTURE_TYPE_PIPELINE_VIEWPORT_STATE_CREATE_INFO,
                                               .viewportCount = 1, .pViewports = &viewport, .scissorCount = 1,
                                               .pScissors = &scissor};
    VkPipelineRasterizationStateCreateInfo raster = {
        .sType = VK_STRUCTURE_TYPE_PIPELINE_RASTERIZATION_STATE_CREATE_INFO, .polygonMode = VK_POLYGON_MODE_FILL,
        .cullMode = VK_CULL_MODE_NONE, .frontFace = VK_FRONT_FACE_COUNTER_CLOCKWISE, .lineWidth = 1};
    VkPipelineMultisampleStateCreateInfo multisample = {
        .sType = VK_STRUCTURE_TYPE_PIPELINE_MULTISAMPLE_STATE_CREATE_INFO, .rasterizationSamples = target->samples};
    VkPipelineColorBlendAttachmentState no_channel = {0};
    VkPipelineColorBlendStateCreateInfo blend = {.sType = VK_STRUCTURE_TYPE_PIPELINE_COLOR_BLEND_STATE_CREATE_INFO,
                                                 .attachmentCount = attachment != NO_ATTACHMENT,
                                                 .pAttachments = &no_channel};
    VkGraphicsPipelineCreateInfo info = {.sType = VK_STRUCTURE_TYPE_GRAPHICS_PIPELINE_CREATE_INFO, .stageCount = 2,
                                         .pStages = stages, .pVertexInputState = &input,
                                         .pInputAssemblyState = &assembly, .pViewportState = &views,
                                         .pRasterizationState = &raster, .pMultisampleState = &multisample,
                                         .pColorBlendState = &blend, .layout = layout, .renderPass = target->pass};
    MUST(vkCreateGraphicsPipelines(device, VK_NULL_HANDLE, 1, &info, NULL, &pipeline));
    return pipeline;
}

/* ---- drawing */

static void record(VkCommandBuffer buffer, const Target *target, VkPipeline pipeline, const Buffer *corners,
                   uint32_t vertices, uint32_t room)
{
    VkCommandBufferBeginInfo begin = {.sType = VK_STRUCTURE_TYPE_COMMAND_BUFFER_BEGIN_INFO,
                                      .flags = VK_COMMAND_BUFFER_USAGE_ONE_TIME_SUBMIT_BIT};
    VkRenderPassBeginInfo pass = {.sType = VK_STRUCTURE_TYPE_RENDER_PASS_BEGIN_INFO, .renderPass = target->pass,
                                  .framebuffer = target->framebuffer,
                                  .renderArea = {{0, 0}, {target->width, target->height}}};
    VkMemoryBarrier barrier = {.sType = VK_STRUCTURE_TYPE_MEMORY_BARRIER,
                               .srcAccessMask = VK_ACCESS_SHADER_WRITE_BIT,
                               .dstAccessMask = VK_ACCESS_HOST_READ_BIT};
    Push push = {1.0f / 128 / viewport_side, target->width, room};
    VkDeviceSize start = 0;
    MUST(vkBeginCommandBuffer(buffer, &begin));
    vkCmdBeginRenderPass(buffer, &pass, VK_SUBPASS_CONTENTS_INLINE);
    vkCmdBindPipeline(buffer, VK_PIPELINE_BIND_POINT_GRAPHICS, pipeline);
    vkCmdBindDescriptorSets(buffer, VK_PIPELINE_BIND_POINT_GRAPHICS, layout, 0, 1, &buffer_set, 0, NULL);
    vkCmdPushConstants(buffer, layout, VK_SHADER_STAGE_VERTEX_BIT | VK_SHADER_STAGE_FRAGMENT_BIT, 0, sizeof push,
                       &push);
    vkCmdBindVertexBuffers(buffer, 0, 1, &corners->buffer, &start);
    vkCmdDraw(buffer, vertices, 1, 0, 0);
    vkCmdEndRenderPass(buffer);
    vkCmdPipelineBarrier(buffer, VK_PIPELINE_STAGE_FRAGMENT_SHADER_BIT, VK_PIPELINE_STAGE_HOST_BIT, 0, 1, &barrier,
                         0, NULL, 0, NULL);
    MUST(vkEndCommandBuffer(buffer));
}

/* Draws once, and returns when the buffers of the shader can be read. */
static void draw_once(const Target *target, VkPipeline pipeline, const Buffer *corners, uint32_t vertices,
                      uint32_t room, const Buffer *buffers)
{
    VkCommandBuffer buffer;
    VkCommandBufferAllocateInfo info = {.sType = VK_STRUCTURE_TYPE_COMMAND_BUFFER_ALLOCATE_INFO,
                                        .commandPool = commands, .level = VK_COMMAND_BUFFER_LEVEL_PRIMARY,
                                        .commandBufferCount = 1};
    MUST(vkAllocateCommandBuffers(device, &info, &buffer));
    bind_buffers(buffers);
    record(buffer, target, pipeline, corners, vertices, room);
    VkSubmitInfo submit = {.sType = VK_STRUCTURE_TYPE_SUBMIT_INFO, .commandBufferCount = 1,
                           .pCommandBuffers = &buffer};
    MUST(vkQueueSubmit(queue, 1, &submit, VK_NULL_HANDLE));
    MUST(vkQueueWaitIdle(queue));
}

static Buffer load_corners(const Scene *scene)
{
    Buffer corners = make_buffer(scene->count * 6 * sizeof(float), VK_BUFFER_USAGE_VERTEX_BUFFER_BIT);
    float *end = corners.map;
    for (uint32_t n = 0; n < scene->count; n++)
        for (int k = 0; k < 3; k++) {
            *end++ = scene->triangles[n].corners[k].x;
            *end++ = scene->triangles[n].corners[k].y;
        }
    return corners;
}

/* Draws all triangles into lists of at most so many fragments. The count goes on beyond that. */
static Lists draw_into(const Target *target, const Scene *scene, uint32_t room)
{
    const VkBufferUsageFlags storage = VK_BUFFER_USAGE_STORAGE_BUFFER_BIT;
    size_t heads = (size_t)scene->width * scene->height * sizeof(uint32_t);
    Lists lists = make_lists(scene->width, scene->height, room);
    Buffer corners = load_corners(scene);
    Buffer buffers[BUFFERS] = {make_buffer(sizeof lists.count, storage), make_buffer(heads, storage),
                               make_buffer(room * sizeof(Node), storage)};
    draw_once(target, target->lists, &corners, 3 * scene->count, room, buffers);
    memcpy(&lists.count, buffers[0].map, sizeof lists.count);
    memcpy(lists.heads, buffers[1].map, heads);
    memcpy(lists.nodes, buffers[2].map, (lists.count < room ? lists.count : room) * sizeof(Node));
    free_buffer(&corners);
    for (int n = 0; n < BUFFERS; n++)
        free_buffer(&buffers[n]);
    return lists;
}

Lists draw_lists(const Scene *scene)
{
    static Target target; /* of the last draw: the draws of one scene are alike */
    if (target.width != scene->width || target.height != scene->height || target.samples != scene->samples) {
        target = (Target){.width = scene->width, .height = scene->height, .samples = scene->samples};
        make_pass(&target);
        target.lists = make_pipeline(&target, lists_frag, sizeof lists_frag);
    }
    Lists lists = draw_into(&target, scene, FIRST_ROOM);
    if (lists.count > FIRST_ROOM) {
        uint32_t count = lists.count;
        free_lists(&lists);
        lists = draw_into(&target, scene, count);
    }
    return lists;
}

bool tell_offsets(int samples, Offset *offsets)
{
    const float cover[6] = {-4096, -4096, 65536, -4096, -4096, 65536};
    const VkBufferUsageFlags storage = VK_BUFFER_USAGE_STORAGE_BUFFER_BIT;
    VkSampleCountFlags counts = properties.limits.framebufferNoAttachmentsSampleCounts;
    if (!features.sampleRateShading || !(counts & samples) || attachment != NO_ATTACHMENT)
        return false;
    Target target = {.width = 1, .height = 1, .samples = samples};
    make_pass(&target);
    VkPipeline pipeline = make_pipeline(&target, offsets_frag, sizeof offsets_frag);
    Buffer corners = make_buffer(sizeof cover, VK_BUFFER_USAGE_VERTEX_BUFFER_BIT);
    Buffer buffers[BUFFERS] = {make_buffer(4, storage), make_buffer(4, storage),
                               make_buffer(2 * MOST_SAMPLES * sizeof(float), storage)};
    memcpy(corners.map, cover, sizeof cover);
    draw_once(&target, pipeline, &corners, 3, 0, buffers);
    const float *places = buffers[2].map;
    for (int k = 0; k < samples; k++)
        offsets[k] = (Offset){16 * places[2 * k] - 8, 16 * places[2 * k + 1] - 8};
    return true;
}
