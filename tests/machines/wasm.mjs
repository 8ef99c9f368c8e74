// Runs a test over metlazuel.wasm, as a page would load it: node wasm.mjs METLAZUEL.wasm TEST.wasm. The test is a module of its own whose calls of the library are
// the library's exports, over the library's memory: the test's data lie above what the library uses.
import { readFileSync, writeSync } from 'node:fs';

const PAGE = 65536;
const PAGES = 48;

class Ended extends Error {
  constructor(status) {
    super();
    this.status = status;
  }
}

const load = (path, imports) => new WebAssembly.Instance(new WebAssembly.Module(readFileSync(path)), imports).exports;

const library = load(process.argv[2], {});
const { memory } = library;
memory.grow(PAGES - memory.buffer.byteLength / PAGE);

function text(at) {
  const bytes = new Uint8Array(memory.buffer);
  let end = at;
  while (bytes[end] !== 0) end++;
  return new TextDecoder().decode(bytes.subarray(at, end));
}

// C's %g: six digits, without the zeros behind them.
function shortest(number) {
  const [digits, exponent] = number.toExponential(5).split('e');
  if (number !== 0 && (exponent < -4 || exponent >= 6)) {
    const size = String(Math.abs(exponent)).padStart(2, '0');
    return `${Number(digits)}e${exponent < 0 ? '-' : '+'}${size}`;
  }
  return String(Number(number.toPrecision(6)));
}

// The arguments of a call with `...` lie in memory, one after the other.
function printf(form, at) {
  const view = new DataView(memory.buffer);
  const number = () => view.getUint32((at += 4) - 4, true);
  const float = () => {
    at = ((at + 7) & ~7) + 8;
    return view.getFloat64(at - 8, true);
  };
  const said = text(form).replace(/%(0?)(\d*)l?([dusxXg%])/g, (_, zero, width, kind) => {
    const forms = {
      d: () => String(number() | 0),
      u: () => String(number()),
      s: () => text(number()),
      x: () => number().toString(16),
      X: () => number().toString(16).toUpperCase(),
      g: () => shortest(float()),
      '%': () => '%',
    };
    return forms[kind]().padStart(Number(width), zero || ' ');
  });
  writeSync(1, said);
  return said.length;
}

function exit(status) {
  throw new Ended(status);
}

const test = load(process.argv[3], { env: { ...library, memory, printf, exit } });
try {
  process.exitCode = test.program();
} catch (ended) {
  if (!(ended instanceof Ended)) throw ended;
  process.exitCode = ended.status;
}
