// Makes usage scopes for real, and tells of each what WebGPU says: of making its bind groups and pipelines, which must be nothing, and
// of encoding it up to finish(), which is the yes or no. Nothing is submitted.
const SIZE = 8;
const ACCESS = {read: 'read-only', write: 'write-only', 'read-write': 'read-write'};
const SAMPLED = {all: 'unfilterable-float', 'depth-only': 'depth', 'stencil-only': 'uint'};
const EMPTY = `@vertex fn at() -> @builtin(position) vec4f { return vec4f(); }
@fragment fn paint() {}
@compute @workgroup_size(1) fn work() {}`;
const kept = new Map();
let device, shader;

// What is made once for each key.
function once(key, make) {
    const text = JSON.stringify(key);
    if (!kept.has(text)) kept.set(text, make());
    return kept.get(text);
}

const hasDepth = format => format.startsWith('depth');
const hasStencil = format => format.includes('stencil');
const isDepth = format => hasDepth(format) || hasStencil(format);
const sizeOf = mip => SIZE >> mip;

function textureOf({dimension, format, mips, layers}) {
    const {TEXTURE_BINDING, STORAGE_BINDING, RENDER_ATTACHMENT, COPY_SRC, COPY_DST} = GPUTextureUsage;
    const usage = TEXTURE_BINDING | RENDER_ATTACHMENT | COPY_SRC | COPY_DST | (isDepth(format) ? 0 : STORAGE_BINDING);
    const size = [SIZE, SIZE, layers];
    return once(['texture', dimension, format, mips, layers],
        () => device.createTexture({dimension, format, mipLevelCount: mips, size, usage}));
}

// A texture that is not under test: what a pass needs to be one. `at` tells those of one pass apart.
function beside(format, sampleCount, mip, at) {
    const size = [sizeOf(mip), sizeOf(mip)];
    return once(['beside', format, sampleCount, mip, at],
        () => device.createTexture({format, sampleCount, size, usage: GPUTextureUsage.RENDER_ATTACHMENT})).createView();
}

// ---- Bind groups -----------------------------------------------------------------------------------------------------------------

function entryOf({use, aspect}, {dimension, format}, visibility, binding) {
    const viewDimension = dimension === '3d' ? '3d' : '2d-array';
    return use === 'sampled'
        ? {binding, visibility, texture: {sampleType: SAMPLED[aspect], viewDimension}}
        : {binding, visibility, storageTexture: {access: ACCESS[use], format, viewDimension}};
}

function layoutOf(group, texture, visibility) {
    const entries = group.map((binding, at) => entryOf(binding, texture, visibility, at));
    return once(['layout', entries], () => device.createBindGroupLayout({entries}));
}

function viewOf({mips, layers, aspect}, texture) {
    const place = {baseMipLevel: mips[0], mipLevelCount: mips[1] - mips[0]};
    const flat = {dimension: '2d-array', aspect, baseArrayLayer: layers[0], arrayLayerCount: layers[1] - layers[0]};
    return textureOf(texture).createView({...place, ...(texture.dimension === '3d' ? {dimension: '3d'} : flat)});
}

function boundOf(groups, texture, visibility) {
    return groups.map(group => device.createBindGroup({
        layout: layoutOf(group, texture, visibility),
        entries: group.map((binding, at) => ({binding: at, resource: viewOf(binding, texture)})),
    }));
}

function pipelineLayout(groups, texture, visibility) {
    return device.createPipelineLayout({bindGroupLayouts: groups.map(group => layoutOf(group, texture, visibility))});
}

// ---- A dispatch ------------------------------------------------------------------------------------------------------------------

function dispatch({texture, groups}) {
    const bound = boundOf(groups, texture, GPUShaderStage.COMPUTE);
    const layout = pipelineLayout(groups, texture, GPUShaderStage.COMPUTE);
    const pipeline = device.createComputePipeline({layout, compute: {module: shader, entryPoint: 'work'}});
    return encoder => {
        const pass = encoder.beginComputePass();
        pass.setPipeline(pipeline);
        bound.forEach((group, at) => pass.setBindGroup(at, group));
        pass.dispatchWorkgroups(1);
        pass.end();
    };
}

// ---- A render pass ---------------------------------------------------------------------------------------------------------------

function attachedView({mip, layer}, texture) {
    const place = {baseMipLevel: mip, mipLevelCount: 1};
    const flat = {dimension: '2d', baseArrayLayer: layer, arrayLayerCount: 1};
    return textureOf(texture).createView({...place, ...(texture.dimension === '3d' ? {dimension: '3d'} : flat)});
}

function colorAttachment(attachment, texture, at) {
    const view = attachedView(attachment, texture);
    const ends = {loadOp: 'clear', storeOp: 'store'};
    if (attachment.how === 'resolve') {
        return {view: beside(texture.format, 4, attachment.mip, at), resolveTarget: view, ...ends};
    }
    return texture.dimension === '3d' ? {view, depthSlice: attachment.layer, ...ends} : {view, ...ends};
}

// An aspect that is written is cleared and stored; one that is read has no such operations.
function depthAttachment(attachment, texture) {
    const made = {view: attachedView(attachment, texture), ...readOnly(attachment, texture)};
    if (made.depthReadOnly === false) Object.assign(made, {depthLoadOp: 'clear', depthStoreOp: 'store', depthClearValue: 0});
    if (made.stencilReadOnly === false) Object.assign(made, {stencilLoadOp: 'clear', stencilStoreOp: 'store'});
    return made;
}

function readOnly({writes}, {format}) {
    const flags = {};
    if (hasDepth(format)) flags.depthReadOnly = !writes.includes('depth-only');
    if (hasStencil(format)) flags.stencilReadOnly = !writes.includes('stencil-only');
    return flags;
}

// The pass, and what pipelines and bundles in it must be made for.
function passOf({texture, attachments}) {
    if (attachments.length === 0) {
        const view = beside('rgba8unorm', 1, 0, 0);
        return {pass: {colorAttachments: [{view, loadOp: 'clear', storeOp: 'store'}]}, colorFormats: ['rgba8unorm'], count: 1, flags: {}};
    }
    const [first] = attachments;
    if (first.how === 'depth') {
        const pass = {colorAttachments: [], depthStencilAttachment: depthAttachment(first, texture)};
        return {pass, colorFormats: [], depthStencilFormat: texture.format, count: 1, flags: readOnly(first, texture)};
    }
    const colorAttachments = attachments.map((each, at) => colorAttachment(each, texture, at));
    const colorFormats = attachments.map(() => texture.format);
    return {pass: {colorAttachments}, colorFormats, count: first.how === 'resolve' ? 4 : 1, flags: {}};
}

function renderPipeline(groups, texture, {colorFormats, depthStencilFormat, count}) {
    const depth = depthStencilFormat && hasDepth(depthStencilFormat) ? {depthWriteEnabled: false, depthCompare: 'always'} : {};
    return device.createRenderPipeline({
        layout: pipelineLayout(groups, texture, GPUShaderStage.FRAGMENT),
        vertex: {module: shader, entryPoint: 'at'},
        fragment: {module: shader, entryPoint: 'paint', targets: colorFormats.map(format => ({format, writeMask: 0}))},
        depthStencil: depthStencilFormat && {format: depthStencilFormat, ...depth},
        multisample: {count},
    });
}

function stepOf({draw, bundle, groups}, texture, made) {
    const bound = boundOf(groups, texture, GPUShaderStage.FRAGMENT);
    const pipeline = draw && renderPipeline(groups, texture, made);
    const encode = encoder => {
        if (draw) encoder.setPipeline(pipeline);
        bound.forEach((group, at) => encoder.setBindGroup(at, group));
        if (draw) encoder.draw(1);
    };
    if (!bundle) return encode;
    const {colorFormats, depthStencilFormat, count, flags} = made;
    return pass => {
        const inner = device.createRenderBundleEncoder({colorFormats, depthStencilFormat, sampleCount: count, ...flags});
        encode(inner);
        pass.executeBundles([inner.finish()]);
    };
}

function render(scope) {
    const made = passOf(scope);
    const steps = scope.steps.map(step => stepOf(step, scope.texture, made));
    return encoder => {
        const pass = encoder.beginRenderPass(made.pass);
        steps.forEach(step => step(pass));
        pass.end();
    };
}

// ---- A copy ----------------------------------------------------------------------------------------------------------------------

function copy({texture, source, destination, layers}) {
    const place = ({mip, layer}) => ({texture: textureOf(texture), mipLevel: mip, origin: [0, 0, layer]});
    const side = isDepth(texture.format) ? sizeOf(source.mip) : 1;
    return encoder => encoder.copyTextureToTexture(place(source), place(destination), [side, side, layers]);
}

// ---- All scopes ------------------------------------------------------------------------------------------------------------------

const KINDS = {dispatch, render, copy};

// What is said of one scope: null, or the first error's words, of making it ready and of finish().
async function judge(scope) {
    device.pushErrorScope('validation');
    const encode = KINDS[scope.kind](scope);
    const ready = device.popErrorScope();
    device.pushErrorScope('validation');
    const encoder = device.createCommandEncoder();
    encode(encoder);
    encoder.finish();
    const finish = device.popErrorScope();
    return [(await ready)?.message ?? null, (await finish)?.message ?? null];
}

async function main() {
    const adapter = await navigator.gpu?.requestAdapter();
    if (!adapter) return {fault: 'there is no WebGPU adapter'};
    device = await adapter.requestDevice();
    shader = device.createShaderModule({code: EMPTY});
    const scopes = await (await fetch('scopes')).json();
    const answers = [];
    for (let at = 0; at < scopes.length; at += 100) answers.push(...await Promise.all(scopes.slice(at, at + 100).map(judge)));
    const {vendor, architecture} = adapter.info;
    return {adapter: `${vendor} ${architecture}`, answers};
}

main().catch(error => ({fault: String(error)})).then(answer => fetch('answers', {method: 'POST', body: JSON.stringify(answer)}));
