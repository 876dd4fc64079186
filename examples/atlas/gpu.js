// The picture while the view moves, drawn by WebGL 2 where the browser has it in hardware. It places pixels by numbers of 32 bits:
// good enough to move by, and not beyond a second of arc, so the picture of a view that rests is drawn by picture.js.

import { channels, tableOf } from "./colours.js";
import { partOf } from "./healpix.js";
import { GROUND, OUTLINE } from "./picture.js";
import { KINDS, PARTS, SKY, WHOLES } from "./projections.js";
import { STRETCHED, STRETCHES } from "./stretch.js";

const LEAST_PIXEL = 1 / 3600;
const MOST_TEXTURES = 400;
const UPLOADS_OF_A_FRAME = 12;
const BLANK = 3e38;
const FARTHEST = 1e6;
const COVERAGE_ORDER = 8;

const VERTICES = `#version 300 es
in vec2 corner;
void main() { gl_Position = vec4(corner, 0.0, 1.0); }`;

const FRAGMENTS = `#version 300 es
precision highp float;
precision highp int;
precision highp sampler2D;
const float PI = 3.14159265358979;
uniform vec2 size, middle, scale;
uniform float most, low, span;
uniform int kind, stretch;
uniform bool has_numbers, has_coverage;
uniform mat3 axes;
uniform ivec4 tile; // its order, face, column and line; a face of -1 is the mosaic
uniform int bits;
uniform sampler2D numbers, colours, coverage;
uniform vec3 ground, outline;
out vec4 colour;

${SKY}

vec3 find(vec3 d) {
    float quarters = mod(atan(d.y, d.x) * 2.0 / PI + 4.0, 4.0);
    if (abs(d.z) <= 2.0 / 3.0) {
        float falling = 0.5 + quarters - 0.75 * d.z, rising = 0.5 + quarters + 0.75 * d.z, left = floor(falling), right = floor(rising);
        float face = left == right ? mod(left, 4.0) + 4.0 : left < right ? mod(left, 4.0) : mod(right, 4.0) + 8.0;
        return vec3(face, rising - right, 1.0 - (falling - left));
    }
    float column = min(floor(quarters), 3.0), along = quarters - column, width = length(d.xy) / sqrt((1.0 + abs(d.z)) / 3.0);
    return d.z > 0.0 ? vec3(column, 1.0 - (1.0 - along) * width, 1.0 - along * width) : vec3(column + 8.0, along * width, (1.0 - along) * width);
}

${STRETCHED}

int spread(int n) { n = (n | n << 2) & 0x33; return (n | n << 1) & 0x55; }

void main() {
    vec2 at = (middle - vec2(gl_FragCoord.x, size.y - gl_FragCoord.y)) / scale;
    if (dot(at, at) > most) discard;
    vec3 place = find(axes * sky(at, kind));
    vec2 part = clamp(place.yz, 0.0, 0.9999999) * float(1 << tile.x);
    ivec2 cell = ivec2(part);
    if (tile.y >= 0 && (int(place.x) != tile.y || cell != tile.zw)) discard;
    vec3 shown = ground;
    if (has_numbers) {
        int side = 1 << bits;
        ivec2 pixel = min(ivec2(fract(part) * float(side)), side - 1);
        ivec2 texel = ivec2(pixel.y, side - 1 - pixel.x);
        if (tile.y < 0) {
            int number = int(place.x) * 64 + (spread(cell.x) | spread(cell.y) << 1);
            texel += ivec2(number % 27, 28 - number / 27) * side;
        }
        float value = texelFetch(numbers, texel, 0).r;
        if (value < 1e38) {
            float level = stretched(clamp((value - low) / span, 0.0, 1.0), stretch);
            shown = texelFetch(colours, ivec2(int(level * 255.0 + 0.5), 0), 0).rgb;
        }
    }
    if (has_coverage) {
        ivec2 leaf = ivec2(clamp(place.yz, 0.0, 0.9999999) * 256.0);
        if (fwidth(texelFetch(coverage, ivec2(leaf.x, int(place.x) * 256 + leaf.y), 0).r) > 0.0) shown = outline;
    }
    colour = vec4(shown, 1.0);
}`;

/** A drawer into a canvas, or null where the browser has no such thing in hardware; with `isForced` also in software. */
export function gpuOf(canvas, isForced) {
    const gl = canvas.getContext("webgl2", { antialias: false, failIfMajorPerformanceCaveat: !isForced });
    if (!gl || (!isForced && isSoftware(gl))) return null;
    try {
        return new Gpu(canvas, gl);
    } catch {
        return null;
    }
}

/** Some browsers don't count a processor's own drawing among what is slow. */
function isSoftware(gl) {
    const told = gl.getExtension("WEBGL_debug_renderer_info");
    return /swiftshader|llvmpipe|softpipe|software|basic render/i.test(gl.getParameter(told ? told.UNMASKED_RENDERER_WEBGL : gl.RENDERER));
}

class Gpu {
    constructor(canvas, gl) {
        Object.assign(this, { canvas, gl });
        this.textures = new Map();
        this.program = gl.createProgram();
        for (const [kind, text] of [[gl.VERTEX_SHADER, VERTICES], [gl.FRAGMENT_SHADER, FRAGMENTS]]) {
            const shader = gl.createShader(kind);
            gl.shaderSource(shader, text);
            gl.compileShader(shader);
            if (!gl.getShaderParameter(shader, gl.COMPILE_STATUS)) throw new Error(gl.getShaderInfoLog(shader));
            gl.attachShader(this.program, shader);
        }
        gl.linkProgram(this.program);
        if (!gl.getProgramParameter(this.program, gl.LINK_STATUS)) throw new Error(gl.getProgramInfoLog(this.program));
        gl.useProgram(this.program);
        gl.bindBuffer(gl.ARRAY_BUFFER, gl.createBuffer());
        gl.bufferData(gl.ARRAY_BUFFER, new Float32Array([-1, -1, 3, -1, -1, 3]), gl.STATIC_DRAW);
        gl.enableVertexAttribArray(0);
        gl.vertexAttribPointer(gl.getAttribLocation(this.program, "corner"), 2, gl.FLOAT, false, 0, 0);
        for (const [unit, name] of ["numbers", "colours", "coverage"].entries()) gl.uniform1i(this.at(name), unit);
        gl.pixelStorei(gl.UNPACK_ALIGNMENT, 1);
    }

    at(name) {
        return this.gl.getUniformLocation(this.program, name);
    }

    /** Whether it draws a view well enough. */
    draws(projection) {
        return projection.pixel >= LEAST_PIXEL && !this.gl.isContextLost();
    }

    /** Draws the layers over each other, the coarsest first, each tile within its bounds on the screen. */
    draw(projection, width, height, { scale, layers, cells, coverage }) {
        const { gl } = this;
        if (this.canvas.width !== width || this.canvas.height !== height) Object.assign(this.canvas, { width, height });
        gl.viewport(0, 0, width, height);
        gl.disable(gl.SCISSOR_TEST);
        gl.clearColor(0, 0, 0, 0);
        gl.clear(gl.COLOR_BUFFER_BIT);
        this.uploads = 0;
        this.use(projection, width, height, scale);
        this.useCoverage(coverage);
        gl.uniform1i(this.at("has_numbers"), 0);
        this.drawTile([3, -1, 0, 0]);
        for (const layer of [...layers].reverse()) this.drawLayer(layer, cells(layer.order), projection, [width, height]);
        this.forget();
    }

    use(projection, width, height, scale) {
        const { gl } = this;
        const { low, high, stretch, colours, isInverted } = scale;
        gl.uniform2f(this.at("size"), width, height);
        gl.uniform2f(this.at("middle"), ...projection.middle);
        const { kind, centre, left, up, half, isWhole } = projection;
        gl.uniform2f(this.at("scale"), ...(isWhole ? [half, half / 2] : [projection.scale, projection.scale]));
        gl.uniform1f(this.at("most"), isWhole ? 1 : Math.min(kind.most, FARTHEST));
        gl.uniform1i(this.at("kind"), KINDS.findIndex((name) => kind === (PARTS[name] ?? WHOLES[name])));
        gl.uniformMatrix3fv(this.at("axes"), false, [...centre, ...left, ...up]);
        // Numbers are kept less a value near those that are shown, so that 32 bits hold their differences.
        if (this.zero === undefined || Math.abs(this.zero - low) > 1000 * (high - low)) this.forgetAll(low);
        gl.uniform1f(this.at("low"), low - this.zero);
        gl.uniform1f(this.at("span"), high - low || 1);
        gl.uniform1i(this.at("stretch"), Object.keys(STRETCHES).indexOf(stretch));
        gl.uniform3f(this.at("ground"), ...channels(GROUND).map((channel) => channel / 255));
        gl.uniform3f(this.at("outline"), ...channels(OUTLINE).map((channel) => channel / 255));
        if (this.colours !== colours || this.isInverted !== isInverted) this.useColours(scale);
    }

    useColours({ colours, isInverted }) {
        const { gl } = this;
        Object.assign(this, { colours, isInverted });
        this.table ??= this.texture();
        this.bindTo(1, this.table, [gl.RGBA8, 256, 1, gl.RGBA, gl.UNSIGNED_BYTE, new Uint8Array(tableOf({ colours, isInverted }).buffer)]);
    }

    useCoverage(coverage) {
        const { gl } = this;
        gl.uniform1i(this.at("has_coverage"), coverage ? 1 : 0);
        if (!coverage || coverage === this.coverage) return;
        this.coverage = coverage;
        this.covered ??= this.texture();
        const side = 2 ** COVERAGE_ORDER;
        this.bindTo(2, this.covered, [gl.R8, side, 12 * side, gl.RED, gl.UNSIGNED_BYTE, coverage.map(COVERAGE_ORDER)]);
    }

    drawLayer(layer, cells, projection, size) {
        const { gl } = this;
        gl.uniform1i(this.at("has_numbers"), 1);
        gl.uniform1i(this.at("bits"), layer.bits);
        if (layer.mosaic) {
            if (this.bind(layer.mosaic)) this.drawTile([3, -1, 0, 0]);
            return;
        }
        gl.enable(gl.SCISSOR_TEST);
        for (const cell of cells) {
            const tile = layer.tiles.get(cell);
            const bounds = tile && projection.boundsOf(layer.order, cell, ...size);
            if (!bounds || !this.bind(tile)) continue;
            const [left, top, right, bottom] = bounds;
            gl.scissor(left, size[1] - bottom, right - left, bottom - top);
            this.drawTile([layer.order, ...partOf(layer.order, cell)]);
        }
        gl.disable(gl.SCISSOR_TEST);
    }

    drawTile(tile) {
        this.gl.uniform4i(this.at("tile"), ...tile);
        this.gl.drawArrays(this.gl.TRIANGLES, 0, 3);
    }

    /** Binds an image's numbers, which are brought to the card some images a frame; false where they aren't there yet. */
    bind(image) {
        const { gl } = this;
        const known = this.textures.get(image);
        if (!known && ++this.uploads > UPLOADS_OF_A_FRAME) return false;
        const texture = known ?? this.texture();
        // Those that were used last are the last ones.
        this.textures.delete(image);
        this.textures.set(image, texture);
        this.bindTo(0, texture);
        if (known) return true;
        const numbers = new Float32Array(image.numbers.length);
        for (let place = 0; place < numbers.length; place++) {
            const value = image.value(place);
            numbers[place] = value !== value ? BLANK : value - this.zero;
        }
        this.bindTo(0, texture, [gl.R32F, image.width, image.height, gl.RED, gl.FLOAT, numbers]);
        return true;
    }

    /** Binds a texture, with new contents where there are some. */
    bindTo(unit, texture, contents) {
        const { gl } = this;
        gl.activeTexture(gl.TEXTURE0 + unit);
        gl.bindTexture(gl.TEXTURE_2D, texture);
        if (!contents) return;
        const [kept, width, height, format, type, data] = contents;
        gl.texImage2D(gl.TEXTURE_2D, 0, kept, width, height, 0, format, type, data);
    }

    /** A new texture, which is bound as the numbers are, so that the others stay. */
    texture() {
        const { gl } = this;
        const made = gl.createTexture();
        gl.activeTexture(gl.TEXTURE0);
        gl.bindTexture(gl.TEXTURE_2D, made);
        for (const name of [gl.TEXTURE_MIN_FILTER, gl.TEXTURE_MAG_FILTER]) gl.texParameteri(gl.TEXTURE_2D, name, gl.NEAREST);
        return made;
    }

    /** Takes away the textures that weren't used for longest. */
    forget(most = MOST_TEXTURES) {
        for (const [image, texture] of this.textures) {
            if (this.textures.size <= most) break;
            this.gl.deleteTexture(texture);
            this.textures.delete(image);
        }
    }

    forgetAll(zero) {
        this.forget(0);
        this.zero = zero;
    }
}
