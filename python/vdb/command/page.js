// SPDX-License-Identifier: Apache-2.0
// The page of `vdb-scene view`: three slices, a list of labels, and the faces of labels. Coordinates here count from `about.origin`.
const about = JSON.parse(document.getElementById("about").textContent);
const $ = (words) => document.querySelector(words);
const AXES = "xyz", root = document.documentElement;
const ARRAYS = { i8: BigInt64Array, f8: Float64Array, i4: Int32Array, u4: Uint32Array, u2: Uint16Array, u1: Uint8Array };
// Each slice: its name, its axis, the axes to the right and down, whether these run backwards, and the letters at its edges.
const SLICES = about.panes;
const OUTSIDE = 0xff0f0c0b, EMPTY = 0xff211d1a; // pixels, red in the lowest byte
const low = about.low.map((part, axis) => part - about.origin[axis]); // the first voxel that is shown
const sides = about.high.map((part, axis) => part - about.low[axis] + 1);
const text = (number) => number.toLocaleString("en");
let data, table, blocks, shown, paint, at, picked, zoom = 1, opacity = 0.6, front = SLICES[0], faces = null, waiting = false;

/** Unpacks the data: arrays by their names. */
async function unpack() {
  const node = document.getElementById("data"), coded = atob(node.textContent.trim());
  node.remove();
  const bytes = new Uint8Array(coded.length);
  for (let place = 0; place < coded.length; place++) bytes[place] = coded.charCodeAt(place);
  const stream = new Blob([bytes]).stream().pipeThrough(new DecompressionStream("deflate"));
  const buffer = await new Response(stream).arrayBuffer();
  const made = {};
  let place = 0;
  for (const [name, form, length] of about.arrays) {
    made[name] = new ARRAYS[form](buffer, place, length);
    place += made[name].byteLength;
  }
  return made;
}

/** Fills the table of blocks: the place of a leaf, or -1 - N for a block whose cells all have the number N. */
function index() {
  blocks = sides.map((side, axis) => (low[axis] + side + 7) >> 3);
  table = new Int32Array(blocks[0] * blocks[1] * blocks[2]).fill(-1);
  const count = data.tiles.length / 7, [x0, y0, z0, x1, y1, z1, number] = Array.from({ length: 7 }, (_, column) => column * count);
  for (let tile = 0; tile < count; tile++) {
    for (let x = data.tiles[x0 + tile]; x < data.tiles[x1 + tile]; x++) {
      for (let y = data.tiles[y0 + tile]; y < data.tiles[y1 + tile]; y++) {
        const row = (x * blocks[1] + y) * blocks[2];
        table.fill(-1 - data.tiles[number + tile], row + data.tiles[z0 + tile], row + data.tiles[z1 + tile]);
      }
    }
  }
  data.leaves.forEach((block, leaf) => { table[block] = leaf; });
}

/** Returns the number of a voxel's cell. */
function cell(x, y, z) {
  const block = table[((x >> 3) * blocks[1] + (y >> 3)) * blocks[2] + (z >> 3)];
  return block < 0 ? -1 - block : data.cells[block * 512 + ((x & 7) << 6 | (y & 7) << 3 | (z & 7))];
}

/** Returns the gray of a voxel, or -1 outside the gray image. */
function grayOf(x, y, z) {
  if (!about.gray) return -1;
  const { low: [x0, y0, z0], shape: [a, b, c], step } = about.gray;
  const i = Math.floor((x - x0) / step), j = Math.floor((y - y0) / step), k = Math.floor((z - z0) / step);
  return i < 0 || j < 0 || k < 0 || i >= a || j >= b || k >= c ? -1 : data.gray[(i * b + j) * c + k];
}

/** Returns the pixel of a voxel: the colour of its label, or that over the gray image. */
function pixel(x, y, z) {
  const number = cell(x, y, z), gray = grayOf(x, y, z);
  if (gray < 0) return paint[number];
  const over = shown[number] ? opacity : 0, colour = paint[number], under = gray * (1 - over);
  return 0xff000000 | (colour >> 16 & 255) * over + under << 16 | (colour >> 8 & 255) * over + under << 8 | (colour & 255) * over + under;
}

const valueOf = (number) => about.kind === "bool" ? String(data.values[number] !== 0n) : String(data.values[number]);
const nameOf = (number) => about.names[number] || "";
const colourOf = (number) => `rgb(${data.colours.subarray(3 * number, 3 * number + 3).join()})`;
const inside = (axis, part) => Math.min(Math.max(part, low[axis]), low[axis] + sides[axis] - 1);

/** Moves the crosshair, and shows what is there. */
function move(to) {
  at = to.map((part, axis) => inside(axis, part));
  const number = cell(...at), place = at.map((part, axis) => part + about.origin[axis]);
  place.forEach((part, axis) => { $(`#at${axis}`).value = part; });
  const empty = !data.active[number];
  $(".cell .chip").style.background = empty ? "transparent" : colourOf(number);
  $(".cell b").textContent = valueOf(number);
  $(".cell span:last-child").textContent = empty ? "inactive" : `${text(data.counts[number])} voxels`;
  $("#name").textContent = nameOf(number);
  if (about.affine) {
    const world = about.affine.map((row) => row[3] + place.reduce((sum, part, axis) => sum + row[axis] * part, 0));
    $("#world").textContent = `${about.ends.length ? "RAS" : "world"} ${world.map((part) => part.toFixed(2)).join(", ")}`;
  }
  mark(number);
  Object.assign(root.dataset, { at: place.join(" "), value: valueOf(number), cell: empty ? "inactive" : "active" });
  draw();
}

/** Marks the row of a label, scrolls the list to it, and shows its measures. */
function mark(number) {
  if (picked) picked.row.classList.remove("picked");
  picked = about.groups.find((group) => group.number === number);
  const in_unit = (number, power) => text(number) + (about.unit && ` ${about.unit}${power}`);
  $("#measures").textContent = picked ? `${in_unit(picked.volume, "\u00b3")}, surface ${in_unit(picked.area, "\u00b2")}` : "";
  if (!picked) return;
  picked.row.classList.add("picked");
  picked.row.scrollIntoView({ block: "nearest" });
}

/** Moves the crosshair by voxels along an axis. */
function step(axis, by) {
  move(at.map((part, other) => part + (other === axis ? by : 0)));
}

/** Draws everything in the next frame. */
function draw() {
  if (!waiting) requestAnimationFrame(() => {
    waiting = false;
    SLICES.forEach(drawSlice);
    if (faces) faces.draw();
    root.dataset.frames = Number(root.dataset.frames || 0) + 1;
  });
  waiting = true;
}

/** Gives a canvas as many pixels as the screen has there. Returns whether it can be seen. */
function fit(canvas) {
  const [width, height] = [canvas.clientWidth, canvas.clientHeight].map((side) => Math.round(side * devicePixelRatio));
  if (canvas.width !== width || canvas.height !== height) Object.assign(canvas, { width, height });
  return width > 0 && height > 0;
}

/** Returns how a slice lies in its canvas: the voxel of a pixel and the pixel of a voxel, to the right and down. */
function placed({ canvas, sides: axes, flips }) {
  const lengths = [canvas.width, canvas.height];
  const fitted = Math.min(...axes.map((axis, side) => lengths[side] / (sides[axis] * about.spacing[axis])));
  return axes.map((axis, side) => {
    const pixels = fitted * zoom * about.spacing[axis] * 0.92, half = lengths[side] / 2 / pixels, middle = low[axis] + sides[axis] / 2;
    const room = Math.max(0, sides[axis] / 2 - half * 0.92);
    const centre = zoom > 1 ? Math.min(Math.max(at[axis] + 0.5, middle - room), middle + room) : middle;
    return {
      voxel: (pixel) => Math.floor(flips[side] ? centre + half - pixel / pixels : centre - half + pixel / pixels),
      pixel: (voxel) => (flips[side] ? centre + half - voxel : voxel - centre + half) * pixels,
    };
  });
}

/** Returns the voxel of each pixel along an axis, -1 outside the box. */
function voxels(length, axis, voxel) {
  return Int32Array.from({ length }, (_, pixel) => {
    const part = voxel(pixel + 0.5);
    return part === inside(axis, part) ? part : -1;
  });
}

function drawSlice(slice) {
  const { canvas, axis, sides: [right, across] } = slice;
  if (!fit(canvas)) return;
  const { width, height } = canvas, context = canvas.getContext("2d"), [columns, rows] = placed(slice);
  const image = context.createImageData(width, height), pixels = new Uint32Array(image.data.buffer);
  const us = voxels(width, right, columns.voxel), vs = voxels(height, across, rows.voxel), place = [...at];
  for (let row = 0; row < height; row++) {
    const start = row * width;
    if (row && vs[row] === vs[row - 1]) {
      pixels.copyWithin(start, start - width, start);
    } else if (vs[row] < 0) {
      pixels.fill(OUTSIDE, start, start + width);
    } else {
      place[across] = vs[row];
      for (let column = 0; column < width; column++) {
        place[right] = us[column];
        pixels[start + column] = us[column] < 0 ? OUTSIDE : pixel(place[0], place[1], place[2]);
      }
    }
  }
  context.putImageData(image, 0, 0);
  cross(context, slice, columns, rows);
  slice.title.textContent = at[axis] + about.origin[axis];
  slice.range.value = at[axis];
}

/** Draws the crosshair of a slice, with a gap at the voxel. */
function cross(context, { sides: [right, across] }, columns, rows) {
  const { width, height } = context.canvas, gap = 7 * devicePixelRatio;
  const x = Math.round(columns.pixel(at[right] + 0.5)) + 0.5, y = Math.round(rows.pixel(at[across] + 0.5)) + 0.5;
  context.lineWidth = Math.max(1, Math.round(devicePixelRatio));
  context.globalAlpha = 0.75;
  for (const [axis, lines] of [[right, [[x, 0, x, y - gap], [x, y + gap, x, height]]], [across, [[0, y, x - gap, y], [x + gap, y, width, y]]]]) {
    context.strokeStyle = getComputedStyle(root).getPropertyValue(`--${AXES[axis]}`);
    context.beginPath();
    for (const [x0, y0, x1, y1] of lines) {
      context.moveTo(x0, y0);
      context.lineTo(x1, y1);
    }
    context.stroke();
  }
  context.globalAlpha = 1;
}

/** Calls a function when the pointer goes down, with one that it gives for the moves until it goes up. */
function dragging(canvas, begin) {
  let go = null;
  canvas.addEventListener("pointerdown", (event) => {
    canvas.setPointerCapture(event.pointerId);
    go = begin(event);
  });
  canvas.addEventListener("pointermove", (event) => go && go(event));
  for (const name of ["pointerup", "pointercancel"]) canvas.addEventListener(name, (event) => {
    if (go && go.end) go.end(event);
    go = null;
  });
}

function wireSlice(slice) {
  const pane = $(`#${AXES[slice.axis]}`), { name, axis, sides: [right, across], flips, edges } = slice;
  pane.style.order = SLICES.indexOf(slice);
  [...edges].forEach((letter, place) => {
    pane.append(Object.assign(document.createElement("b"), { className: `edge ${["left", "right", "top", "bottom"][place]}`, textContent: letter }));
  });
  Object.assign(slice, { pane, canvas: pane.querySelector("canvas"), range: pane.querySelector("input") });
  pane.querySelector(".name").innerHTML = `<i></i><span style="color: var(--${AXES[axis]})">${AXES[axis]} = <b></b></span>`;
  pane.querySelector("i").textContent = edges ? name : "";
  slice.title = pane.querySelector("b");
  pane.querySelector(".axes").textContent = `${AXES[right]} ${flips[0] ? "\u2190" : "\u2192"}  ${AXES[across]} ${flips[1] ? "\u2191" : "\u2193"}`;
  Object.assign(slice.range, { min: low[axis], max: low[axis] + sides[axis] - 1 });
  slice.range.addEventListener("input", () => step(axis, slice.range.valueAsNumber - at[axis]));
  pane.addEventListener("pointerenter", () => choose(slice));
  slice.canvas.addEventListener("wheel", (event) => {
    event.preventDefault();
    if (event.ctrlKey) zooming(event.deltaY < 0 ? 1.25 : 0.8);
    else step(axis, -Math.sign(event.deltaY || event.deltaX) * (event.shiftKey ? 10 : 1));
  }, { passive: false });
  dragging(slice.canvas, (first) => {
    const [columns, rows] = placed(slice), go = (event) => {
      const to = [...at];
      to[right] = columns.voxel(event.offsetX * devicePixelRatio);
      to[across] = rows.voxel(event.offsetY * devicePixelRatio);
      move(to);
    };
    go(first);
    return go;
  });
}

function choose(slice) {
  front = slice;
  SLICES.forEach((each) => each.pane.classList.toggle("front", each === slice));
}

function zooming(by) {
  zoom = Math.min(Math.max(zoom * by, 1), 64);
  draw();
}

function key(event) {
  if (event.target.matches("input:not([type=checkbox]):not([type=range])") || event.ctrlKey || event.metaKey || event.altKey) return;
  const by = event.shiftKey ? 10 : 1, { axis, sides: [right, across], flips } = front, [left, up] = flips.map((flip) => flip ? by : -by);
  const keys = {
    ArrowLeft: [right, left], ArrowRight: [right, -left], ArrowUp: [across, up], ArrowDown: [across, -up],
    PageUp: [axis, by], PageDown: [axis, -by], ".": [axis, by], ",": [axis, -by], ">": [axis, by], "<": [axis, -by],
  };
  if (keys[event.key]) step(...keys[event.key]);
  else if ("+=".includes(event.key)) zooming(1.25);
  else if (event.key === "-") zooming(0.8);
  else if (event.key === "c") $("#cut").click();
  else return;
  event.preventDefault();
}

/** Shows or hides the labels of a row. */
function show(group, visible) {
  for (const number of group.numbers()) {
    shown[number] = Number(visible);
    paint[number] = visible ? pixelOf(number) : EMPTY;
  }
  group.visible = visible;
  group.row.classList.toggle("off", !visible);
  group.box.checked = visible;
  $("#all").checked = about.groups.every((each) => each.visible);
}

const pixelOf = (number) => (0xff000000 | data.colours[3 * number + 2] << 16 | data.colours[3 * number + 1] << 8 | data.colours[3 * number]) >>> 0;

/** Makes the row of a group: a label, or for the number -1 all labels that the list leaves out. */
function list(group) {
  const row = document.createElement("li"), others = group.number < 0;
  const listed = new Set(about.groups.map((each) => each.number));
  group.numbers = () => others ? Array.from(data.active.keys()).filter((number) => data.active[number] && !listed.has(number)) : [group.number];
  row.innerHTML = '<input type="checkbox"><span class="chip"></span><button></button><span></span>';
  const [box, chip, name, count] = row.children;
  Object.assign(group, { row, box, visible: true });
  box.checked = true;
  box.addEventListener("change", () => { show(group, box.checked); draw(); });
  chip.style.background = others ? "#555" : colourOf(group.number);
  name.textContent = others ? `${text(group.labels)} others` : `${valueOf(group.number)} ${nameOf(group.number)}`;
  name.title = others ? "" : `go to ${name.textContent}`;
  name.addEventListener("click", () => group.middle && move(group.middle.map((part, axis) => part - about.origin[axis])));
  count.textContent = text(group.count);
  $("ul").append(row);
}

/** Fills the panel at the side. */
function panel() {
  $("h1").textContent = about.name;
  $("#file").textContent = about.file;
  const shape = about.bounds[1].map((part, axis) => text(part - about.bounds[0][axis] + 1)).join(" \u00d7 ");
  $("#size").textContent = `${about.kind}, ${shape} voxels`;
  $("#count").textContent = `${text(about.count)} active`;
  for (const axis of [0, 1, 2]) {
    const label = document.createElement("label");
    label.innerHTML = `<span style="color: var(--${AXES[axis]})">${AXES[axis]}</span><input id="at${axis}" inputmode="numeric">`;
    label.lastChild.addEventListener("change", (event) => step(axis, (Math.round(event.target.value) - about.origin[axis] - at[axis]) || 0));
    $(".at").append(label);
  }
  const more = about.labels > about.groups.length;
  $("#heading").textContent = more ? `${text(about.listed)} of ${text(about.labels)} labels` : `${text(about.labels)} label${about.labels === 1 ? "" : "s"}`;
  if (about.gray) {
    const { file, step, window: ends } = about.gray, digits = Math.min(Math.max(2 - Math.floor(Math.log10(Math.abs(ends[1] - ends[0]))), 0), 20);
    const [black, white] = ends.map((end) => Number(end.toFixed(digits)));
    $("#over").hidden = false;
    $("#over span").textContent = `over ${file}, ${black} to ${white}${step > 1 ? `, a voxel of ${step} along each axis` : ""}`;
    $("#over input").addEventListener("input", (event) => { opacity = event.target.valueAsNumber; draw(); });
  }
  about.groups.forEach(list);
  $("#all").addEventListener("change", () => {
    const visible = $("#all").checked;
    about.groups.forEach((group) => show(group, visible));
    draw();
  });
}

async function start() {
  data = await unpack();
  index();
  shown = Uint8Array.from(data.active);
  paint = Uint32Array.from(data.active, (active, number) => active ? pixelOf(number) : EMPTY);
  panel();
  SLICES.forEach(wireSlice);
  choose(front);
  try {
    faces = facesOf($("#space canvas"));
    root.dataset.faces = data.direction.length;
  } catch (error) {
    $(".none").textContent = `No faces: ${error.message}`;
    $("#space label").style.display = "none";
  }
  addEventListener("keydown", key);
  $("#cut").addEventListener("change", draw);
  for (const pane of document.querySelectorAll(".pane")) pane.querySelector("canvas").addEventListener("dblclick", () => {
    pane.classList.toggle("large");
    $("main").classList.toggle("single", pane.classList.contains("large"));
    draw();
  });
  new ResizeObserver(draw).observe($("main"));
  move(about.at.map((part, axis) => part - about.origin[axis]));
  root.dataset.state = "ready";
}
