"use strict";

/** The numbers of a packed list (tools/packed.py says how they are packed). */
async function unpack(packed) {
  const text = atob(packed.zlib), zipped = new Uint8Array(text.length);
  for (let at = 0; at < text.length; at++) zipped[at] = text.charCodeAt(at);
  const stream = new Blob([zipped]).stream().pipeThrough(new DecompressionStream("deflate"));
  const planes = new Uint8Array(await new Response(stream).arrayBuffer()), count = packed.n;
  if (planes.length !== count * packed.bytes) throw new Error("the data of this page is damaged");
  if (packed.bytes === 1 && !packed.differences) return planes;
  const values = packed.bytes > 4 || packed.differences ? new Float64Array(count) : new Uint32Array(count);
  let last = 0;
  for (let at = 0; at < count; at++) {
    let value = 0;
    for (let plane = packed.bytes - 1; plane >= 0; plane--) value = value * 256 + planes[plane * count + at];
    if (packed.differences) value = last += value % 2 ? -(value + 1) / 2 : value / 2;
    values[at] = value;
  }
  return values;
}

/** Each of some packed lists, by its name. */
async function unpackAll(packed, names) {
  const lists = await Promise.all(names.map(name => packed[name] ? unpack(packed[name]) : null));
  return Object.fromEntries(names.map((name, at) => [name, lists[at]]));
}

/** A whole number as people read it. One that a double does not hold exactly is said to be rounded. */
function amount(value) {
  return (value > Number.MAX_SAFE_INTEGER ? "about " : "") + value.toLocaleString("en");
}

/** A number with the name of what is counted. */
function counted(value, name) {
  return amount(value) + " " + name + (value === 1 ? "" : "s");
}

/** The greatest length of 1, 2 or 5 times a power of ten that is at most this. */
function roundLength(most) {
  const power = 10 ** Math.floor(Math.log10(most) + 1e-9);
  return [5, 2, 1].find(times => times * power <= most * 1.000001) * power;
}

/** A number with few decimals, none of them zero at the end. */
function short(value, decimals) {
  return String(Number(value.toFixed(decimals)));
}
