// The program, in a worker of its own, so that the page stays at hand while it runs and can end it.
'use strict';

const encoder = new TextEncoder(), decoder = new TextDecoder();
const made = new Set(); // the tables that are kept
const begun = { 1: '', 2: '' }; // of each stream the line that isn't whole yet
let layer = null; // what system.c has for the page

// Copies these bytes, one behind the other, into the layer's buffer.
function handOver(...parts) {
  const size = parts.reduce((sum, part) => sum + part.length, 0);
  let place = Number(layer.buffer(BigInt(size)));
  if (!place) throw new Error('there is not enough memory');
  for (const part of parts) {
    new Uint8Array(layer.memory.buffer, place, part.length).set(part);
    place += part.length;
  }
}

function put(name, text) {
  const parts = [encoder.encode(name + '\0'), encoder.encode(text)];
  handOver(...parts);
  if (layer.put(...parts.map(part => BigInt(part.length))) !== 0) throw new Error(`${name} could not be put there`);
}

// Takes what the program writes, and hands the lines to the page that are whole.
function take(stream, at, size) {
  const text = begun[stream] + decoder.decode(new Uint8Array(layer.memory.buffer, Number(at), Number(size)));
  const lines = text.split('\n');
  begun[stream] = lines.pop();
  if (lines.length) postMessage({ stream, lines });
}

// Runs the program with these words and this input; its status.
function run(words, input) {
  begun[1] = begun[2] = '';
  const parts = [encoder.encode(words.map(word => word + '\0').join('')), encoder.encode(input)];
  handOver(...parts);
  return layer.run(...parts.map(part => BigInt(part.length)));
}

// Makes the tables that aren't there yet, and has the claims proved over them; the status of the run that was the last.
function prove({ side, masks, sets, claims }) {
  const names = masks.map(mask => `table_${side}_${mask}`);
  for (const [number, name] of names.entries()) {
    if (made.has(name)) continue;
    postMessage({ making: number, count: names.length });
    const status = run(['make-table', String(side), String(masks[number]), name], '');
    if (status !== 0) return status;
    made.add(name);
  }
  put('sets', sets);
  postMessage({ proving: true });
  return run(['prove', '-', 'sets', ...names], claims);
}

async function start(module) {
  const page = { wrote: take, clock: () => performance.now() };
  layer = (await WebAssembly.instantiate(module, { page })).instance.exports;
  postMessage({ ready: true });
}

onmessage = async ({ data }) => {
  try {
    if (data.module) return await start(data.module);
    const status = data.replay === undefined ? prove(data) : run(['replay'], data.replay);
    postMessage({ status, memory: layer.memory.buffer.byteLength });
  } catch (error) {
    postMessage({ broken: String(error.message ?? error) });
  }
};
