// SPDX-License-Identifier: Apache-2.0
// The faces of labels in WebGL 2: a rectangle for each instance, a draw call for each label.
const RECTANGLE = `#version 300 es
precision highp float;
in vec3 low; in vec2 sides; in float direction; in vec3 colour;
uniform mat4 view; uniform mat3 world, normals; uniform vec3 eye, sun;
out vec3 shade, from; out vec2 voxel;
const vec2 CORNERS[6] = vec2[](vec2(0, 0), vec2(1, 0), vec2(1, 1), vec2(0, 0), vec2(1, 1), vec2(0, 1));
void main() {
  int axis = int(direction) / 2, upper = int(direction) % 2;
  vec2 corner = CORNERS[gl_VertexID];
  voxel = (upper == 1 ? corner : corner.yx) * sides;
  vec3 u = axis == 0 ? vec3(0, 1, 0) : axis == 1 ? vec3(0, 0, 1) : vec3(1, 0, 0);
  vec3 v = u.zxy, normal = v.zxy * (upper == 1 ? 1.0 : -1.0);
  from = low + u * voxel.x + v * voxel.y;
  vec3 place = world * from;
  normal = normalize(normals * normal);
  float front = max(dot(normal, normalize(eye - place)), 0.0), light = max(dot(normal, normalize(sun)), 0.0);
  shade = pow(colour, vec3(2.2)) * (0.22 + 0.55 * front + 0.45 * light);
  gl_Position = view * vec4(place, 1);
}`;
const SURFACE = `#version 300 es
precision highp float;
in vec3 shade, from; in vec2 voxel;
uniform vec3 cut, toward; // nothing is cut if \`toward\` is 0
out vec4 pixel;
void main() {
  if (all(greaterThan((from - cut) * toward, vec3(0)))) discard;
  vec2 width = fwidth(voxel), near = abs(fract(voxel - 0.5) - 0.5) / width;
  float line = (1.0 - min(min(near.x, near.y), 1.0)) * 0.3 * clamp(1.3 - 5.0 * max(width.x, width.y), 0.0, 1.0);
  pixel = vec4(pow(shade * (1.0 - line), vec3(1.0 / 2.2)), 1);
}`;
const POINT = `#version 300 es
in vec3 low; uniform mat4 view; uniform mat3 world;
void main() { gl_Position = view * vec4(world * low, 1); }`;
const LINE = `#version 300 es
precision mediump float;
uniform vec4 colour; out vec4 pixel;
void main() { pixel = colour; }`;

const PLANE = `#version 300 es
uniform mat4 view; uniform mat3 world; uniform vec3 corner, right, across;
out vec2 part;
void main() {
  part = vec2(gl_VertexID & 1, gl_VertexID >> 1);
  gl_Position = view * vec4(world * (corner + right * part.x + across * part.y), 1);
}`;
const SLICE = `#version 300 es
precision highp float;
in vec2 part; uniform sampler2D slice; uniform float light; out vec4 pixel;
void main() {
  pixel = texture(slice, part);
  if (pixel.a < 0.5) discard;
  pixel.rgb *= light;
}`;
const TEXELS = 1024; // the most of a slice along a side

/** Returns the matrix product of two 4 x 4 matrices, columns first. */
function product(a, b) {
  return Float32Array.from({ length: 16 }, (_, place) => {
    const row = place & 3, column = place & 12;
    return a[row] * b[column] + a[row + 4] * b[column + 1] + a[row + 8] * b[column + 2] + a[row + 12] * b[column + 3];
  });
}

const dot = (a, b) => a.reduce((sum, part, axis) => sum + part * b[axis], 0);
const times = (rows, vector) => rows.map((row) => dot(row, vector));

/** Builds a program of two shaders. Its attributes have the places of `names`. */
function programOf(gl, vertex, fragment, names) {
  const program = gl.createProgram();
  for (const [kind, source] of [[gl.VERTEX_SHADER, vertex], [gl.FRAGMENT_SHADER, fragment]]) {
    const shader = gl.createShader(kind);
    gl.shaderSource(shader, source);
    gl.compileShader(shader);
    gl.attachShader(program, shader);
  }
  names.forEach((name, place) => gl.bindAttribLocation(program, place, name));
  gl.linkProgram(program);
  if (!gl.getProgramParameter(program, gl.LINK_STATUS)) throw new Error(gl.getProgramInfoLog(program));
  const place = (name) => gl.getUniformLocation(program, name);
  const count = gl.getProgramParameter(program, gl.ACTIVE_UNIFORMS);
  const uniforms = Array.from({ length: count }, (_, number) => gl.getActiveUniform(program, number).name);
  return { program, ...Object.fromEntries(uniforms.map((name) => [name, gl.getUniformLocation(program, name)])) };
}

/** Returns the instances of the rectangles: 6 floats and a colour of 4 bytes each, from the middle of the box. */
function instances(middle) {
  const count = data.direction.length, made = new ArrayBuffer(28 * count), floats = new Float32Array(made), bytes = new Uint8Array(made);
  for (let face = 0; face < count; face++) {
    for (let axis = 0; axis < 3; axis++) {
      floats[7 * face + axis] = data.corners[axis * count + face] - middle[axis];
      bytes[28 * face + 24 + axis] = data.colours[3 * data.labels[face] + axis];
    }
    floats[7 * face + 3] = data.sides[face];
    floats[7 * face + 4] = data.sides[count + face];
    floats[7 * face + 5] = data.direction[face];
  }
  return made;
}

/** Draws the faces on a canvas, with a camera. Throws an error without WebGL 2. */
function facesOf(canvas) {
  const gl = canvas.getContext("webgl2", { antialias: true });
  if (!gl) throw new Error("the browser has no WebGL 2");
  const { world, inverse } = about, middle = sides.map((side, axis) => low[axis] + side / 2), body = about.ends.length > 0;
  const radiusOf = (lengths) => Math.hypot(...times(world.map((row) => row.map(Math.abs)), lengths)) / 2, radius = radiusOf(sides);
  const [first, last] = about.bounds, labelled = first.map((part, axis) => (part + last[axis] + 1) / 2 - about.origin[axis] - middle[axis]);
  const camera = { // a body is seen from its front
    turn: body ? Math.PI - 0.6 : 0.6, tilt: body ? 0.3 : 0.42, away: 3.3 * radiusOf(first.map((part, axis) => last[axis] - part + 5)),
    target: times(world, labelled),
  };
  const letters = about.ends.flatMap((pair, axis) => [...pair].map((letter, upper) => {
    const element = Object.assign(document.createElement("b"), { className: "edge", textContent: letter });
    canvas.parentElement.append(element);
    return { element, place: times(world, sides.map((side, other) => other === axis ? side * (upper - 0.5) * 1.15 : 0)) };
  }));
  const rectangles = programOf(gl, RECTANGLE, SURFACE, ["low", "sides", "direction", "colour"]);
  const lines = programOf(gl, POINT, LINE, ["low"]), planes = programOf(gl, PLANE, SLICE, []), texture = gl.createTexture();
  const faceBuffer = gl.createBuffer(), lineBuffer = gl.createBuffer();
  gl.bindBuffer(gl.ARRAY_BUFFER, faceBuffer);
  gl.bufferData(gl.ARRAY_BUFFER, instances(middle), gl.STATIC_DRAW);

  /** Returns the directions of the camera: to the right, up, and back from the target. */
  function frame() {
    const { turn, tilt } = camera, [s, c, t, u] = [Math.sin(turn), Math.cos(turn), Math.sin(tilt), Math.cos(tilt)];
    return [[c, s, 0], [-t * s, t * c, u], [u * s, -u * c, t]];
  }

  function viewOf() {
    const [right, up, back] = frame(), { away, target } = camera;
    const eye = target.map((part, axis) => part + away * back[axis]);
    const near = Math.max(away - 2 * radius, away * 0.02), far = away + 2.5 * radius + Math.hypot(...target), length = 1 / Math.tan(0.32);
    const depth = 1 / (near - far), shape = canvas.width / canvas.height, focus = length * Math.min(1, shape);
    const look = [right[0], up[0], back[0], 0, right[1], up[1], back[1], 0, right[2], up[2], back[2], 0, -dot(right, eye), -dot(up, eye), -dot(back, eye), 1];
    const lens = [focus / shape, 0, 0, 0, 0, focus, 0, 0, 0, 0, (near + far) * depth, -1, 0, 0, 2 * near * far * depth, 0];
    return { view: product(lens, look), eye, focus, shape };
  }

  function attribute(place, size, kind, normal, offset) {
    gl.enableVertexAttribArray(place);
    gl.vertexAttribPointer(place, size, kind, normal, 28, offset);
    gl.vertexAttribDivisor(place, 1);
  }

  /** Draws by a program from now on. */
  function use(made, view) {
    gl.useProgram(made.program);
    gl.uniformMatrix4fv(made.view, false, view);
    gl.uniformMatrix3fv(made.world, true, world.flat());
  }

  const cutting = () => $("#cut").checked;

  function drawFaces(view, eye) {
    use(rectangles, view);
    gl.uniformMatrix3fv(rectangles.normals, false, inverse.flat());
    gl.uniform3fv(rectangles.eye, eye);
    gl.uniform3fv(rectangles.sun, [-0.45, body ? 0.6 : -0.6, 0.9]);
    gl.uniform3fv(rectangles.cut, at.map((part, axis) => part + 0.5 - middle[axis]));
    gl.uniform3fv(rectangles.toward, sides.map((_, axis) => cutting() ? dot(frame()[2], world.map((row) => row[axis])) : 0));
    gl.bindBuffer(gl.ARRAY_BUFFER, faceBuffer);
    for (const { visible, faces: [first, count] } of about.groups) {
      if (!visible || !count) continue;
      attribute(0, 3, gl.FLOAT, false, 28 * first);
      attribute(1, 2, gl.FLOAT, false, 28 * first + 12);
      attribute(2, 1, gl.FLOAT, false, 28 * first + 20);
      attribute(3, 3, gl.UNSIGNED_BYTE, true, 28 * first + 24);
      gl.drawArraysInstanced(gl.TRIANGLES, 0, 6, count);
    }
    for (const place of [1, 2, 3]) gl.disableVertexAttribArray(place);
  }

  /** Draws the voxels of the three slices that are shown. */
  function drawSlices(view) {
    use(planes, view);
    gl.bindTexture(gl.TEXTURE_2D, texture);
    for (const name of [gl.TEXTURE_MIN_FILTER, gl.TEXTURE_MAG_FILTER]) gl.texParameteri(gl.TEXTURE_2D, name, gl.NEAREST);
    for (const { axis, sides: [right, across] } of SLICES) {
      const [width, height] = [right, across].map((side) => Math.min(sides[side], TEXELS)), place = [...at];
      const texels = new Uint32Array(width * height), corner = sides.map((side) => -side / 2);
      for (let row = 0; row < height; row++) {
        place[across] = low[across] + Math.floor((row + 0.5) * sides[across] / height);
        for (let column = 0; column < width; column++) {
          place[right] = low[right] + Math.floor((column + 0.5) * sides[right] / width);
          const number = cell(place[0], place[1], place[2]);
          texels[row * width + column] = shown[number] && paint[number];
        }
      }
      gl.texImage2D(gl.TEXTURE_2D, 0, gl.RGBA, width, height, 0, gl.RGBA, gl.UNSIGNED_BYTE, new Uint8Array(texels.buffer));
      corner[axis] = at[axis] + 0.5 - middle[axis];
      gl.uniform3fv(planes.corner, corner);
      gl.uniform1f(planes.light, [0.75, 0.87, 1][axis]);
      gl.uniform3fv(planes.right, sides.map((side, other) => other === right ? side : 0));
      gl.uniform3fv(planes.across, sides.map((side, other) => other === across ? side : 0));
      gl.drawArrays(gl.TRIANGLE_STRIP, 0, 4);
    }
  }

  /** Draws the edges of a box of corners past the middle, or of a rectangle if it is flat. */
  function drawBox(from, to, colour) {
    const points = [];
    for (let axis = 0; axis < 3; axis++) for (const corner of [0, 1, 2, 3]) for (const end of [from, to]) {
      const point = [0, 0, 0];
      point[axis] = end[axis];
      [1, 2].forEach((next, bit) => { point[(axis + next) % 3] = (corner >> bit & 1 ? to : from)[(axis + next) % 3]; });
      points.push(...point);
    }
    gl.bindBuffer(gl.ARRAY_BUFFER, lineBuffer);
    gl.bufferData(gl.ARRAY_BUFFER, new Float32Array(points), gl.STREAM_DRAW);
    gl.enableVertexAttribArray(0);
    gl.vertexAttribPointer(0, 3, gl.FLOAT, false, 12, 0);
    gl.vertexAttribDivisor(0, 0);
    gl.uniform4fv(lines.colour, colour);
    gl.drawArrays(gl.LINES, 0, points.length / 3);
  }

  function drawLines(view) {
    use(lines, view);
    const from = sides.map((side) => -side / 2), to = sides.map((side) => side / 2);
    drawBox(from, to, [0.24, 0.26, 0.3, 1]);
    [[0.88, 0.53, 0.45, 1], [0.56, 0.75, 0.46, 1], [0.47, 0.65, 0.9, 1]].forEach((colour, axis) => {
      const plane = (corner) => corner.map((part, other) => other === axis ? at[axis] + 0.5 - middle[axis] : part);
      drawBox(plane(from), plane(to), colour);
    });
  }

  function draw3() {
    if (!fit(canvas)) return;
    const { view, eye } = viewOf();
    gl.viewport(0, 0, canvas.width, canvas.height);
    gl.clearColor(0.043, 0.047, 0.059, 1);
    gl.clear(gl.COLOR_BUFFER_BIT | gl.DEPTH_BUFFER_BIT);
    gl.enable(gl.DEPTH_TEST);
    gl.enable(gl.CULL_FACE);
    gl.frontFace(about.mirrored ? gl.CW : gl.CCW);
    drawFaces(view, eye);
    gl.disable(gl.CULL_FACE);
    if (cutting()) drawSlices(view);
    drawLines(view);
    for (const { element, place } of letters) {
      const [x, y, , w] = [0, 1, 2, 3].map((row) => dot([...place, 1], [0, 4, 8, 12].map((column) => view[row + column])));
      Object.assign(element.style, { left: `${50 + 50 * x / w}%`, top: `${50 - 50 * y / w}%`, opacity: w > camera.away ? 0.35 : 1 });
    }
  }

  /** Moves the crosshair to the first voxel that is shown on the line of sight through a pixel. */
  function pick(event) {
    const { eye, focus, shape } = viewOf(), [right, up, back] = frame();
    const h = (2 * event.offsetX / canvas.clientWidth - 1) * shape / focus, v = (1 - 2 * event.offsetY / canvas.clientHeight) / focus;
    const begin = times(inverse, eye).map((part, axis) => part + middle[axis]);
    const ray = times(inverse, right.map((part, axis) => h * part + v * up[axis] - back[axis]));
    const spans = ray.map((part, axis) => [low[axis], low[axis] + sides[axis]].map((end) => (end - begin[axis]) / part).sort((a, b) => a - b));
    let now = Math.max(0, ...spans.map((span) => span[0]));
    const past = Math.min(...spans.map((span) => span[1]));
    const voxel = begin.map((part, axis) => inside(axis, Math.floor(part + now * ray[axis] + 1e-6 * Math.sign(ray[axis]))));
    while (now < past) {
      if (shown[cell(...voxel)]) return move(voxel);
      const ends = voxel.map((part, axis) => ray[axis] ? (part + Number(ray[axis] > 0) - begin[axis]) / ray[axis] : Infinity);
      now = Math.min(...ends);
      const axis = ends.indexOf(now);
      voxel[axis] += Math.sign(ray[axis]);
      if (voxel[axis] !== inside(axis, voxel[axis])) return;
    }
  }

  dragging(canvas, (first) => {
    let { offsetX: x, offsetY: y } = first, moved = 0;
    const go = (event) => {
      const dx = event.offsetX - x, dy = event.offsetY - y, [right, up] = frame();
      [x, y, moved] = [event.offsetX, event.offsetY, moved + Math.abs(dx) + Math.abs(dy)];
      if (event.shiftKey || event.buttons === 2) {
        const unit = 0.66 * camera.away / canvas.clientHeight;
        camera.target = camera.target.map((part, axis) => part + unit * (dy * up[axis] - dx * right[axis]));
      } else {
        camera.turn -= dx * 0.008;
        camera.tilt = Math.min(Math.max(camera.tilt + dy * 0.008, -1.57), 1.57);
      }
      draw();
    };
    go.end = (event) => moved < 4 && event.type === "pointerup" && pick(event);
    return go;
  });
  canvas.addEventListener("contextmenu", (event) => event.preventDefault());
  canvas.addEventListener("wheel", (event) => {
    event.preventDefault();
    camera.away = Math.min(Math.max(camera.away * 1.15 ** Math.sign(event.deltaY), 0.05 * radius), 20 * radius);
    draw();
  }, { passive: false });
  return { draw: draw3 };
}

start().catch((error) => {
  root.dataset.state = `error: ${error.message}`;
  $(".none").textContent = `The page can't be shown: ${error.message}`;
});
