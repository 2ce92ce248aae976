// Prints the lines of a copybook's layout, as `copybook layout --lines` does, by the library's WebAssembly module:
//
//     node examples/wasm/layout.mjs MODULE FILE [cards]
//
// Needs a node with memories of 64 bits: before 24, node --experimental-wasm-memory64. The module imports nothing; its
// functions are those of include/copybook.h, addresses and lengths as BigInt.
import { readFileSync } from 'node:fs';

const WORK = 16384; // COPYBOOK_WORK
const LISTING = 10 + 800 * 2 * 49; // COPYBOOK_LONGEST_LISTING
const PAGE = 65536;

const KINDS = ['record', 'text', 'int', 'bin', 'dec', 'edit', 'group', 'float'];
const GROUP = 6;
const AFTER_KIND = [0, 0, 2, 1, 4, 11, 4, 1]; // bytes after the 38 that every entry has

/** Lends so many bytes behind the module's own memory: where they start. */
function lend(memory, bytes) {
  const start = memory.buffer.byteLength;
  const pages = Math.ceil(bytes / PAGE);
  try {
    memory.grow(BigInt(pages));
  } catch {
    memory.grow(pages); // where memories of 64 bits are an experiment
  }
  return start;
}

/** The number of the refusal and its position, or 0 and the listing. */
function layout(calls, text, form) {
  const { memory } = calls;
  const [input, work, out, answer] = [text.length + 1, 4 * WORK, LISTING, 16].map((bytes) => lend(memory, bytes));
  new Uint8Array(memory.buffer).set(text, input);
  const call = form === 'cards' ? calls.copybook_layout_cards : calls.copybook_layout;
  const lent = [input, text.length, work, WORK, out, LISTING, answer, 2];
  const number = call(...lent.map(BigInt));
  const first = Number(new DataView(memory.buffer).getBigUint64(answer, true));
  return number ? { number, position: first } : { number, listing: new DataView(memory.buffer, out, first) };
}

/** The lines of a listing, whose entries name parts of the text. */
function* lines(listing, text) {
  const number = (at) => listing.getUint32(at, true);
  const word = (at, absent) => {
    const [start, length] = [number(at), number(at + 4)];
    return length ? text.toString('latin1', start, start + length) : absent;
  };
  yield `record ${number(1)} ${listing.getUint8(5) ? 'variable' : 'fixed'} ${number(6)}`;
  const open = []; // of each group around the next entry, how many members are still to come
  for (let at = 10; at < listing.byteLength; ) {
    const kind = listing.getUint8(at);
    const occurs = listing.getUint8(at + 17) ? number(at + 18) : '-';
    yield [open.length, word(at + 1, 'FILLER'), number(at + 9), number(at + 13), KINDS[kind], occurs,
      word(at + 22, '-'), word(at + 30, '-')].join(' ');
    if (open.length) open[open.length - 1] -= 1;
    if (kind === GROUP) open.push(number(at + 38));
    while (open.at(-1) === 0) open.pop();
    at += 38 + AFTER_KIND[kind];
  }
}

const [module, file, form] = process.argv.slice(2);
const { instance } = await WebAssembly.instantiate(readFileSync(module), {});
const text = readFileSync(file);
const { number, position, listing } = layout(instance.exports, text, form);
for (const line of number ? [`refused ${number} ${position}`] : lines(listing, text)) console.log(line);
process.exitCode = number ? 1 : 0;
