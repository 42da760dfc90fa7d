"use strict";
/* Draws by WebGL 2. */
{
  const { Mesh } = drillolive;
  const KEPT = 40; // how many sets of numbers stay with the graphics processor
  const MOST_RATIO = 2; // of pixels of the device to those of the page

  const MESH_VERTEX = `#version 300 es
layout(location = 0) in vec3 place; layout(location = 1) in vec4 flatNormal; layout(location = 2) in vec3 smoothNormal;
uniform mat4 matrix; uniform mat3 axes; uniform bool isFlat;
out vec3 normal; flat out int kind;
void main() {
  normal = axes * (isFlat ? flatNormal.xyz : smoothNormal);
  kind = int(flatNormal.w + 0.5);
  gl_Position = matrix * vec4(place, 1.0);
}`;
  const MESH_FRAGMENT = `#version 300 es
precision highp float;
in vec3 normal; flat in int kind;
uniform vec3 colours[6]; uniform vec3 backColour; uniform float ratio; uniform bool showsHoles;
out vec4 colour;
void main() {
  float stripe = mod((gl_FragCoord.x + gl_FragCoord.y) / ratio, 9.0);
  if (kind == 1 && (!showsHoles || stripe > 2.0)) discard;
  vec3 unit = normalize(gl_FrontFacing ? normal : -normal);
  float lit = max(dot(unit, normalize(vec3(-0.35, 0.62, 0.70))), 0.0);
  float side = max(dot(unit, normalize(vec3(0.8, -0.2, 0.5))), 0.0);
  vec3 base = gl_FrontFacing || kind != 0 ? colours[kind] : backColour;
  if (kind == 2 && stripe < 2.2) base *= 0.82;
  float shade = kind == 1 ? 1.0 : 0.64 + 0.40 * lit + 0.06 * side;
  float shine = kind == 1 ? 0.0 : 0.10 * pow(lit, 18.0);
  colour = vec4(min(base * shade + shine, 1.0), 1.0);
}`;
  const LINE_VERTEX = `#version 300 es
layout(location = 0) in vec3 from; layout(location = 1) in vec3 to;
uniform mat4 matrix; uniform vec2 size; uniform float width; uniform float bias; uniform float cap;
out float along; out float depth;
void main() {
  vec4 one = matrix * vec4(from, 1.0), other = matrix * vec4(to, 1.0);
  const float least = 0.001;
  if (one.w < least && other.w < least) { gl_Position = vec4(2.0, 2.0, 2.0, 1.0); return; }
  if (one.w < least) one = mix(other, one, (other.w - least) / (other.w - one.w));
  if (other.w < least) other = mix(one, other, (one.w - least) / (one.w - other.w));
  vec2 way = (other.xy / other.w - one.xy / one.w) * size * 0.5;
  float distance = length(way);
  way = distance > 0.0 ? way / distance : vec2(1.0, 0.0);
  bool isEnd = gl_VertexID > 1;
  vec2 shift = vec2(-way.y, way.x) * (float(gl_VertexID & 1) * 2.0 - 1.0) + way * (isEnd ? cap : -cap);
  vec4 place = isEnd ? other : one;
  along = (isEnd ? distance : 0.0) * place.w;
  depth = place.w;
  place.xy += shift * width / size * place.w;
  place.z -= bias * place.w;
  gl_Position = place;
}`;
  const LINE_FRAGMENT = `#version 300 es
precision highp float;
in float along; in float depth;
uniform vec4 tone; uniform float dash;
out vec4 colour;
void main() {
  if (dash > 0.0 && mod(along / depth, 2.0 * dash) > dash) discard;
  colour = tone;
}`;
  const DOT_VERTEX = `#version 300 es
layout(location = 0) in vec3 place; layout(location = 1) in float size;
uniform mat4 matrix; uniform float ratio; uniform float bias;
out float pixels;
void main() {
  gl_Position = matrix * vec4(place, 1.0);
  gl_Position.z -= bias * gl_Position.w;
  pixels = size * ratio;
  gl_PointSize = pixels;
}`;
  const DOT_FRAGMENT = `#version 300 es
precision highp float;
in float pixels;
uniform vec4 tone; uniform vec4 rim; uniform int shape;
out vec4 colour;
void main() {
  vec2 place = (gl_PointCoord - 0.5) * 2.0;
  float far = shape == 2 ? abs(place.x) + abs(place.y) : length(place);
  float edge = 2.0 / pixels;
  float inside = 1.0 - smoothstep(1.0 - edge, 1.0, far);
  if (shape == 1) inside *= smoothstep(1.0 - 4.5 * edge, 1.0 - 3.5 * edge, far);
  if (inside <= 0.01) discard;
  float border = shape == 1 ? 0.0 : smoothstep(1.0 - 3.0 * edge, 1.0 - 2.0 * edge, far);
  colour = vec4(mix(tone.rgb, rim.rgb, border), tone.a * inside);
}`;

  class WebglRenderer {
    /** Throws where the canvas has no WebGL 2. */
    constructor(canvas) {
      const options = { antialias: true, alpha: false, preserveDrawingBuffer: false };
      const gl = canvas.getContext("webgl2", options);
      if (!gl) throw new Error("there is no WebGL 2");
      Object.assign(this, { canvas, gl, name: "webgl", mostFaces: Infinity, kept: new Map() });
      canvas.addEventListener("webglcontextlost", (event) => event.preventDefault());
      canvas.addEventListener("webglcontextrestored", () => this.begin());
      this.begin();
    }

    begin() {
      this.kept.clear();
      this.programs = {
        mesh: this.program(MESH_VERTEX, MESH_FRAGMENT), line: this.program(LINE_VERTEX, LINE_FRAGMENT),
        dot: this.program(DOT_VERTEX, DOT_FRAGMENT),
      };
    }

    program(vertex, fragment) {
      const { gl } = this;
      const program = gl.createProgram();
      for (const [kind, text] of [[gl.VERTEX_SHADER, vertex], [gl.FRAGMENT_SHADER, fragment]]) {
        const shader = gl.createShader(kind);
        gl.shaderSource(shader, text);
        gl.compileShader(shader);
        gl.attachShader(program, shader);
      }
      gl.linkProgram(program);
      if (!gl.getProgramParameter(program, gl.LINK_STATUS)) throw new Error(gl.getProgramInfoLog(program));
      const places = {};
      for (let number = gl.getProgramParameter(program, gl.ACTIVE_UNIFORMS) - 1; number >= 0; number--) {
        const name = gl.getActiveUniform(program, number).name.replace("[0]", "");
        places[name] = gl.getUniformLocation(program, name);
      }
      return { program, places };
    }

    /** Returns what was made for a key, or makes it. What was not used for longest goes. */
    keep(key, make) {
      const held = this.kept.get(key) ?? make();
      this.kept.delete(key);
      this.kept.set(key, held);
      for (const [old, { buffers, array }] of this.kept) {
        if (this.kept.size <= KEPT) break;
        buffers.forEach((buffer) => this.gl.deleteBuffer(buffer));
        this.gl.deleteVertexArray(array);
        this.kept.delete(old);
      }
      return held;
    }

    buffer(target, data) {
      const buffer = this.gl.createBuffer();
      this.gl.bindBuffer(target, buffer);
      this.gl.bufferData(target, data, this.gl.STATIC_DRAW);
      return buffer;
    }

    resize(camera) {
      this.ratio = Math.min(window.devicePixelRatio || 1, MOST_RATIO);
      const [width, height] = [Math.round(camera.width * this.ratio), Math.round(camera.height * this.ratio)];
      if (this.canvas.width !== width) this.canvas.width = width;
      if (this.canvas.height !== height) this.canvas.height = height;
      this.gl.viewport(0, 0, width, height);
    }

    /** Draws a picture, and returns how many triangles, lines and dots it has. */
    draw(camera, palette, picture) {
      const { gl } = this;
      this.resize(camera);
      this.matrix = camera.matrix();
      gl.clearColor(...palette.of("ground").map((channel) => channel / 255), 1);
      gl.clear(gl.COLOR_BUFFER_BIT | gl.DEPTH_BUFFER_BIT);
      gl.enable(gl.DEPTH_TEST);
      gl.depthFunc(gl.LEQUAL);
      gl.enable(gl.BLEND);
      gl.blendFunc(gl.SRC_ALPHA, gl.ONE_MINUS_SRC_ALPHA);
      const triangles = this.drawMesh(camera, palette, picture);
      let [lines, dots] = [0, 0];
      for (const set of picture.lines) lines += this.drawLines(camera, palette, set, picture.density);
      for (const set of picture.dots) dots += this.drawDots(palette, set);
      return { triangles, lines, dots };
    }

    /** Waits until all is drawn, for the calls that draw return before. Only what reads the picture surely waits. */
    finish() {
      const { gl } = this;
      gl.readPixels(0, 0, 1, 1, gl.RGBA, gl.UNSIGNED_BYTE, new Uint8Array(4));
    }

    makeMesh(part) {
      const { gl } = this;
      const mesh = new Mesh(part);
      const array = gl.createVertexArray();
      gl.bindVertexArray(array);
      const buffers = [this.buffer(gl.ARRAY_BUFFER, mesh.vertices), this.buffer(gl.ELEMENT_ARRAY_BUFFER, mesh.indices)];
      const stride = 28;
      gl.bindBuffer(gl.ARRAY_BUFFER, buffers[0]);
      gl.vertexAttribPointer(0, 3, gl.FLOAT, false, stride, 0);
      gl.vertexAttribPointer(1, 4, gl.SHORT, false, stride, 12);
      gl.vertexAttribPointer(2, 3, gl.SHORT, false, stride, 20);
      for (let place = 0; place < 3; place++) gl.enableVertexAttribArray(place);
      return { array, buffers, count: mesh.indices.length };
    }

    drawMesh(camera, palette, { mesh, isFlat, showsHoles }) {
      const { gl } = this;
      const held = this.keep(mesh.key, () => this.makeMesh(mesh.make()));
      const { program, places } = this.programs.mesh;
      const colours = ["front", "hole", "outer", "selected", "leaf", "pale"].flatMap((name) => palette.of(name));
      const [right, up, back] = camera.axes();
      gl.useProgram(program);
      gl.bindVertexArray(held.array);
      gl.uniformMatrix4fv(places.matrix, false, this.matrix);
      gl.uniformMatrix3fv(places.axes, false, [0, 1, 2].flatMap((axis) => [right[axis], up[axis], back[axis]]));
      gl.uniform1i(places.isFlat, isFlat);
      gl.uniform1i(places.showsHoles, showsHoles);
      gl.uniform1f(places.ratio, this.ratio);
      gl.uniform3fv(places.colours, colours.map((channel) => channel / 255));
      gl.uniform3fv(places.backColour, palette.of("back").map((channel) => channel / 255));
      gl.enable(gl.POLYGON_OFFSET_FILL);
      gl.polygonOffset(1, 1);
      gl.drawElements(gl.TRIANGLES, held.count, gl.UNSIGNED_INT, 0);
      gl.disable(gl.POLYGON_OFFSET_FILL);
      return held.count / 3;
    }

    makeLines(ends) {
      const { gl } = this;
      const array = gl.createVertexArray();
      gl.bindVertexArray(array);
      const buffers = [this.buffer(gl.ARRAY_BUFFER, ends)];
      for (let place = 0; place < 2; place++) {
        gl.vertexAttribPointer(place, 3, gl.FLOAT, false, 24, 12 * place);
        gl.vertexAttribDivisor(place, 1);
        gl.enableVertexAttribArray(place);
      }
      return { array, buffers, count: ends.length / 6 };
    }

    drawLines(camera, palette, { key, make, style }, density) {
      const { gl } = this;
      const held = this.keep(key, () => this.makeLines(make()));
      const { program, places } = this.programs.line;
      const tone = palette.of(style.colour).map((channel) => channel / 255);
      gl.useProgram(program);
      gl.bindVertexArray(held.array);
      gl.uniformMatrix4fv(places.matrix, false, this.matrix);
      gl.uniform2f(places.size, this.canvas.width, this.canvas.height);
      gl.uniform1f(places.width, style.width * this.ratio);
      gl.uniform1f(places.bias, style.isThin ? 0.0012 : 0.003);
      gl.uniform1f(places.cap, style.dash || style.isThin ? 0 : 0.7);
      gl.uniform1f(places.dash, (style.dash ?? 0) * this.ratio);
      if (style.seenThrough) {
        gl.disable(gl.DEPTH_TEST);
        gl.uniform4f(places.tone, ...tone, style.seenThrough);
        gl.drawArraysInstanced(gl.TRIANGLE_STRIP, 0, 4, held.count);
        gl.enable(gl.DEPTH_TEST);
      }
      gl.uniform4f(places.tone, ...tone, style.isThin ? density : 1);
      gl.drawArraysInstanced(gl.TRIANGLE_STRIP, 0, 4, held.count);
      return held.count;
    }

    makeDots(points, sizes) {
      const { gl } = this;
      const array = gl.createVertexArray();
      gl.bindVertexArray(array);
      const buffers = [this.buffer(gl.ARRAY_BUFFER, points), this.buffer(gl.ARRAY_BUFFER, sizes)];
      buffers.forEach((buffer, place) => {
        gl.bindBuffer(gl.ARRAY_BUFFER, buffer);
        gl.vertexAttribPointer(place, place ? 1 : 3, gl.FLOAT, false, 0, 0);
        gl.enableVertexAttribArray(place);
      });
      return { array, buffers, count: sizes.length };
    }

    drawDots(palette, { key, make, count, sizes, style }) {
      const { gl } = this;
      const held = this.keep(key, () => this.makeDots(make(), sizes ?? new Float32Array(count).fill(style.size)));
      const { program, places } = this.programs.dot;
      gl.useProgram(program);
      gl.bindVertexArray(held.array);
      gl.uniformMatrix4fv(places.matrix, false, this.matrix);
      gl.uniform1f(places.ratio, this.ratio);
      gl.uniform1f(places.bias, 0.005);
      const tone = palette.of(style.colour).map((channel) => channel / 255);
      gl.uniform4f(places.rim, ...palette.of("ground").map((channel) => channel / 255), 1);
      gl.uniform1i(places.shape, style.shape);
      if (style.seenThrough) {
        gl.disable(gl.DEPTH_TEST);
        gl.uniform4f(places.tone, ...tone, style.seenThrough);
        gl.drawArrays(gl.POINTS, 0, held.count);
        gl.enable(gl.DEPTH_TEST);
      }
      gl.uniform4f(places.tone, ...tone, 1);
      gl.drawArrays(gl.POINTS, 0, held.count);
      return held.count;
    }
  }

  Object.assign(drillolive, { WebglRenderer });
}
