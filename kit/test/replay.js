/**
 * Repeats calls of the native library, as kit/test/tap.c writes them, in WebAssembly, and compares the number that comes back, every byte
 * of every slice, and guard bytes around each; every 500th time all of the memory that is free.
 *
 *   node replay.js WASM CALLS [--changed] <stream
 *
 * It fails if anything differs, if there are fewer calls than CALLS, or if a function of the module was not called. With --changed the
 * module gives refusal 27 in a place where it gave 28, and it fails if nothing differs.
 */
import { readFileSync, readSync } from 'node:fs';

const GUARD = 0xa5;
const GUARDS = 32;
const WHOLE = 500;

/** Standard input, by so many bytes at a time. */
class Stream {
  constructor() {
    this.buffer = Buffer.alloc(1 << 22);
    this.at = 0;
    this.end = 0;
  }

  /** Are so many bytes there? @param {number} count */
  has(count) {
    if (this.end - this.at >= count) return true;
    const kept = this.buffer.subarray(this.at, this.end);
    const buffer = count > this.buffer.length ? Buffer.alloc(2 * count) : this.buffer;
    kept.copy(buffer);
    [this.buffer, this.at, this.end] = [buffer, 0, kept.length];
    while (this.end < count) {
      const got = readSync(0, this.buffer, this.end, this.buffer.length - this.end, null);
      if (got === 0) return false;
      this.end += got;
    }
    return true;
  }

  /** @param {number} count */
  take(count) {
    if (!this.has(count)) throw new Error('the stream breaks off in the middle of a call');
    this.at += count;
    return Buffer.from(this.buffer.subarray(this.at - count, this.at));
  }

  number(bytes) {
    return this.take(bytes).readUIntLE(0, bytes);
  }

  name() {
    let name = '';
    for (let byte = this.number(1); byte !== 0; byte = this.number(1)) name += String.fromCharCode(byte);
    return name;
  }

  argument() {
    if (this.number(1) === 'n'.charCodeAt(0)) return { number: this.number(4) };
    const [width, count, changed] = [this.number(1), this.number(4), this.number(1)];
    const before = this.take(width * count);
    return { width, count, before, after: changed ? this.take(width * count) : before };
  }

  call() {
    const [name, code, count] = [this.name(), this.take(8).readBigUInt64LE(), this.number(1)];
    return { name, code, args: Array.from({ length: count }, () => this.argument()) };
  }
}

/** A random number, for where slices stand. */
let state = 12345;
function below(count) {
  state ^= state << 13;
  state ^= state >>> 17;
  state ^= state << 5;
  return (state >>> 0) % count;
}

/** The module's memory, with slices at places that have nothing to do with each other. */
class Side {
  constructor(wasm) {
    this.exports = new WebAssembly.Instance(new WebAssembly.Module(wasm), {}).exports;
    this.memory = Buffer.from(this.exports.memory.buffer);
    this.base = this.exports.__heap_base.value;
  }

  /** Puts the slices down, each between guards, and gives the arguments. */
  put(args) {
    let at = this.base;
    return args.flatMap((arg) => {
      if (arg.number !== undefined) return [arg.number | 0];
      const start = at + GUARDS + below(16);
      arg.place = Math.ceil(start / arg.width) * arg.width;
      const end = arg.place + arg.before.length;
      if (end + GUARDS > this.memory.length) throw new Error('the slices have no room in the memory');
      this.memory.fill(GUARD, at, end + GUARDS);
      arg.before.copy(this.memory, arg.place);
      at = end + GUARDS;
      return [arg.place, BigInt(arg.count)];
    });
  }

  /** What differs from the native call; nothing if all is the same. */
  compare({ name, code, args }, whole) {
    const slices = args.filter((arg) => arg.number === undefined);
    const given = this.put(args);
    const memory = whole ? Buffer.from(this.memory.subarray(this.base)) : null;
    let came;
    try {
      came = BigInt.asUintN(64, this.exports[name](...given));
    } catch (error) {
      return String(error);
    }
    if (came !== code) return `${came >> 32n} at ${came & 0xffffffffn}`;
    for (const { place, after } of slices) {
      if (after.compare(this.memory, place, place + after.length) !== 0) return 'a slice';
      if (!this.guarded(place - GUARDS) || !this.guarded(place + after.length)) return 'a guard';
      if (memory) after.copy(memory, place - this.base);
    }
    return memory && memory.compare(this.memory, this.base) !== 0 ? 'memory that was not lent' : null;
  }

  guarded(from) {
    return this.memory.subarray(from, from + GUARDS).every((byte) => byte === GUARD);
  }
}

/** The module with one byte changed: where it first says 28, it says 27. */
function changed(wasm) {
  const at = wasm.indexOf(Buffer.from([0x42, 0x80, 0x80, 0x80, 0x80, 0xc0, 0x03]));
  if (at < 0) throw new Error('there is no place at which the module says 28');
  const copy = Buffer.from(wasm);
  copy[at + 5] = 0xb0;
  return copy;
}

function replay(side) {
  const stream = new Stream();
  const calls = new Map();
  const differences = [];
  for (let count = 1; stream.has(1); count++) {
    const call = stream.call();
    calls.set(call.name, (calls.get(call.name) ?? 0) + 1);
    const differs = side.compare(call, count % WHOLE === 0);
    if (differs) differences.push(`${call.name}: native ${call.code >> 32n} at ${call.code & 0xffffffffn}, wasm differs: ${differs}`);
  }
  return { calls, differences };
}

const [path, least, fault] = process.argv.slice(2);
const wasm = readFileSync(path);
const { calls, differences } = replay(new Side(fault === '--changed' ? changed(wasm) : wasm));
const all = [...calls.values()].reduce((sum, count) => sum + count, 0);
const exported = WebAssembly.Module.exports(new WebAssembly.Module(wasm)).map(({ name }) => name);
const functions = exported.filter((name) => name.startsWith('krossvil_'));
const uncalled = functions.filter((name) => !calls.has(name));
differences.slice(0, 5).forEach((difference) => console.log(difference));
if (fault !== '--changed') for (const name of functions) console.log(`${name}: ${calls.get(name) ?? 0} calls`);
console.log(`${all} calls, ${differences.length} differ`);
if (all < Number(least)) console.log(`fewer than ${least} calls`);
if (uncalled.length > 0) console.log(`not called: ${uncalled.join(', ')}`);
const same = differences.length === 0;
process.exit(all >= Number(least) && uncalled.length === 0 && same === (fault !== '--changed') ? 0 : 1);
