/**
 * The proved library, and nothing else: bytes in, an answer or a refusal out. Nothing is judged here.
 *
 * Each function takes what include/krossvil.h says, save for buffers, and answers {ok: true, ..} with numbers under their names, or
 * {ok: false, number, place}. Buffers are always long enough, so 30 comes only from a report or a memory that is too short.
 */

/** @typedef {import('./types.js').Library} Library */
/** @typedef {import('./types.js').Refused} Refused */
/** @typedef {{at: number, size: number}} Room */

const JOURNAL_MAX = 65536;
const REPORT_MAX = 1089;
const LIVE = 17;

/** The longest field that bytes can claim, which is longer than any journal: whether it has run out tells 20 from 21. */
const FIELD_MAX = 3 + 65535;

/**
 * Bytes behind these change no answer. Of a journal one more than the limit is enough to be refused with 19. Of a table fields with their
 * right length end before 2,000, and no field claims more than 65,535.
 */
export const BYTES_READ = 70000;

/** So many bytes of each argument are handed over. The last room is no argument's own, so no call writes to it. */
const SIZES = {
  table: BYTES_READ,
  input: FIELD_MAX,
  output: JOURNAL_MAX,
  sums: 4 * 32 * 32,
  path: 63,
  answer: 28,
  report: 8 * REPORT_MAX,
  live: 4 * LIVE,
  reading: BYTES_READ,
};

const ACCEPTANCE = ['end', 'cycles', 'moves', 'state', 'output', 'left', 'longest'];

/** Rooms begin at multiples of this. Numbers need 8; a file is read at half the speed into a room that begins a few bytes behind a page. */
const ALIGNED = 64;

/**
 * Rooms in the module's memory, apart from each other.
 * @param {number} base  where the memory is free from
 * @returns {Record<string, Room>}
 */
function layOut(base) {
  /** @type {Record<string, Room>} */
  const rooms = {};
  let at = Math.ceil(base / ALIGNED) * ALIGNED;
  for (const [name, size] of Object.entries(SIZES)) {
    rooms[name] = { at, size };
    at += Math.ceil((size + 1) / ALIGNED) * ALIGNED;
  }
  return rooms;
}

/** The module's memory, and calls of its functions. */
class Module {
  /** @param {WebAssembly.Exports} exports */
  constructor(exports) {
    this.exports = /** @type {any} */ (exports);
    this.memory = new Uint8Array(this.exports.memory.buffer);
    this.view = new DataView(this.exports.memory.buffer);
    this.rooms = layOut(Number(this.exports.__heap_base.value));
    this.answerRoom = this.lend('answer');
    const { at, size } = this.rooms.reading;
    this.reading = this.memory.subarray(at, at + size);
  }

  /**
   * A slice that is read: the bytes are put in their room, save for those in the room for reading, which stay there.
   * @param {string} name @param {Uint8Array} bytes
   */
  give(name, bytes) {
    const { at, size } = this.rooms[name];
    const given = bytes.length > size ? bytes.subarray(0, size) : bytes;
    const length = BigInt(given.length);
    if (given.byteOffset >= this.reading.byteOffset && given.buffer === this.memory.buffer) return [given.byteOffset, length];
    this.memory.set(given, at);
    return [at, length];
  }

  /**
   * A slice that is written: its whole room, of so many numbers.
   * @param {string} name @param {number} [width]
   */
  lend(name, width = 1) {
    const { at, size } = this.rooms[name];
    return [at, BigInt(size / width)];
  }

  /** @param {string} name @param {number} length */
  take(name, length) {
    const { at } = this.rooms[name];
    return this.memory.slice(at, at + length);
  }

  /**
   * A good answer, with its numbers under these names.
   * @param {string[]} names
   */
  answer(names) {
    const { at } = this.rooms.answer;
    /** @type {Record<string, any>} */
    const numbers = { ok: true };
    for (let k = 0; k < names.length; k++) numbers[names[k]] = this.view.getUint32(at + 4 * k);
    return numbers;
  }

  /**
   * Calls a function. Its answer is 64 bits wide: the number of the refusal, and the place.
   * @param {string} name @param {(number|bigint)[][]} args @param {string[]} names  of the answer's numbers
   * @returns {any}
   */
  call(name, args, names) {
    if (names.length > 0) args.push(this.answerRoom);
    const code = BigInt.asUintN(64, this.exports[name](...args.flat()));
    if (code !== 0n) return { ok: false, number: Number(code >> 32n), place: Number(code & 0xffffffffn) };
    return this.answer(names);
  }

  /**
   * A call that writes bytes. `length` says how many, from the answer.
   * @param {string} name @param {any[][]} args @param {string[]} names @param {(answer: any) => number} length @returns {any}
   */
  write(name, args, names, length) {
    const answer = this.call(name, [...args, this.lend('output')], names);
    return answer.ok ? { ...answer, bytes: this.take('output', length(answer)) } : answer;
  }
}

/**
 * Answers whose only number is the length of what was written.
 * @param {any} answer
 */
function withoutLength(answer) {
  const { length, ...rest } = answer;
  return rest;
}

/** The functions of the library. @implements {Library} */
class Krossvil {
  /** @param {Module} module */
  constructor(module) {
    this.module = module;
    this.reading = module.reading;
  }

  /** @param {Uint8Array} table */
  checkTable(table) {
    return this.module.call('krossvil_check_table', [this.module.give('table', table)], []);
  }

  /** @param {Uint8Array} table @param {Uint8Array} journal */
  checkJournal(table, journal) {
    return this.module.call('krossvil_check_journal', this.#two(table, journal), ACCEPTANCE);
  }

  /** @param {Uint8Array} table @param {Uint8Array} shortJournal */
  checkShort(table, shortJournal) {
    return this.module.call('krossvil_check_short', this.#two(table, shortJournal), ACCEPTANCE);
  }

  /**
   * The journal of a stimulus.
   * @param {Uint8Array} table @param {Uint8Array} stimulus
   */
  run(table, stimulus) {
    return this.#rewrite('krossvil_run', this.#two(table, stimulus));
  }

  /** @param {Uint8Array} table @param {number} states @param {number} inputs */
  reaction(table, states, inputs) {
    return this.module.call('krossvil_reaction', [this.module.give('table', table), [states, inputs]], ['time', 'target']);
  }

  /** @param {Uint8Array} table @param {number} states @param {number} inputs */
  reactionTight(table, states, inputs) {
    const args = [this.module.give('table', table), [states, inputs]];
    return this.module.call('krossvil_reaction_tight', args, ['time', 'target', 'tight']);
  }

  /** @param {Uint8Array} table @param {number} states @param {number} inputs @param {number} moves */
  reactionTightMoves(table, states, inputs, moves) {
    const args = [this.module.give('table', table), [states, inputs, Math.min(moves, 0xffffffff)]];
    return this.module.call('krossvil_reaction_tight_moves', args, ['time', 'target', 'tight']);
  }

  /**
   * Over several moves: sums[r][q], and one worst path as state, input, state .. state.
   * @param {Uint8Array} table @param {number} states @param {number} inputs @param {number} moves
   */
  reactionMoves(table, states, inputs, moves) {
    const m = this.module;
    const sets = [states, inputs, Math.min(moves, 0xffffffff)];
    const args = [m.give('table', table), sets, m.lend('sums', 4), m.lend('path')];
    const { length, ...answer } = m.call('krossvil_reaction_moves', args, ['time', 'target', 'length']);
    if (!answer.ok) return answer;
    return { ...answer, sums: this.#sums(moves, table[3]), path: [...m.take('path', length)] };
  }

  /** @param {Uint8Array} table  one that was made before there was 11 */
  convertTable(table) {
    const m = this.module;
    return m.write('krossvil_convert_table', [m.give('table', table)], ['changed'], () => table.length);
  }

  /**
   * The long form of a stamped journal.
   * @param {Uint8Array} stamped
   */
  readStamped(stamped) {
    return this.#rewrite('krossvil_read_stamped', [this.module.give('input', stamped)]);
  }

  /** @param {Uint8Array} table @param {Uint8Array} journal */
  shorten(table, journal) {
    return this.#rewrite('krossvil_shorten', this.#two(table, journal));
  }

  /** @param {Uint8Array} table @param {Uint8Array} shortJournal */
  lengthen(table, shortJournal) {
    return this.#rewrite('krossvil_lengthen', this.#two(table, shortJournal));
  }

  /**
   * What is sound of a torn journal; `number` and `place` are the refusal that stopped it, 0 and 0 if none did.
   * @param {Uint8Array} table @param {Uint8Array} journal
   */
  salvage(table, journal) {
    const names = ['kept', 'dropped', 'number', 'place'];
    return this.module.write('krossvil_salvage', this.#two(table, journal), names, (a) => a.kept + (a.number === 0 ? 0 : 7));
  }

  /**
   * Adds where the journal's time went; `report` is changed.
   * @param {Uint8Array} table @param {Uint8Array} journal @param {BigUint64Array} report
   */
  reportAdd(table, journal, report) {
    const m = this.module;
    const used = report.subarray(0, REPORT_MAX);
    const room = new BigUint64Array(m.memory.buffer, m.rooms.report.at, used.length);
    room.set(used);
    const args = [...this.#two(table, journal), [m.rooms.report.at, BigInt(used.length)]];
    const answer = m.call('krossvil_report_add', args, []);
    used.set(room);
    return answer;
  }

  /**
   * The record that the next event of a stimulus makes; `memory` goes on to what is behind it.
   * @param {Uint8Array} table @param {Uint32Array} memory @param {Uint8Array} event
   */
  live(table, memory, event) {
    const names = ['length', 'state', 'output', 'phase', 'left', 'deadline'];
    return this.#remembering(memory, (lent) => {
      const args = [this.module.give('table', table), lent, this.module.give('input', event)];
      return withoutLength(this.module.write('krossvil_live', args, names, (a) => a.length));
    });
  }

  /**
   * Takes the next record of a journal; `memory` goes on to what is behind it. The numbers are those of the journal up to there.
   * @param {Uint8Array} table @param {Uint32Array} memory @param {Uint8Array} record
   */
  watch(table, memory, record) {
    return this.#remembering(memory, (lent) => {
      const args = [this.module.give('table', table), lent, this.module.give('input', record)];
      return this.module.call('krossvil_watch', args, ACCEPTANCE);
    });
  }

  /**
   * A call that is lent the memory of a live run. Numbers behind its own are the host's, and are not handed over.
   * @param {Uint32Array} memory @param {(lent: (number|bigint)[]) => any} ask
   */
  #remembering(memory, ask) {
    const { memory: { buffer }, rooms: { live: { at } } } = this.module;
    const used = memory.subarray(0, LIVE);
    const room = new Uint32Array(buffer, at, used.length);
    room.set(used);
    const answer = ask([at, BigInt(used.length)]);
    used.set(room);
    return answer;
  }

  /** @param {Uint8Array} table @param {Uint8Array} input */
  #two(table, input) {
    return [this.module.give('table', table), this.module.give('input', input)];
  }

  /** @param {string} name @param {any[][]} args */
  #rewrite(name, args) {
    return withoutLength(this.module.write(name, args, ['length'], (a) => a.length));
  }

  /** @param {number} rows @param {number} columns */
  #sums(rows, columns) {
    const { rooms, view } = this.module;
    const sum = (/** @type {number} */ k) => view.getUint32(rooms.sums.at + 4 * k, true);
    return Array.from({ length: rows }, (_, r) => Array.from({ length: columns }, (_, q) => sum(r * columns + q)));
  }
}

/**
 * The library, from the bytes of target/kit/krossvil.wasm.
 * @param {BufferSource} wasm
 * @returns {Promise<Library>}
 */
export async function loadLibrary(wasm) {
  const { instance } = await WebAssembly.instantiate(wasm, {});
  return new Krossvil(new Module(instance.exports));
}

/**
 * The same at once, without other threads; a browser may not do that.
 * @param {BufferSource} wasm
 * @returns {Library}
 */
export function loadLibraryNow(wasm) {
  return new Krossvil(new Module(new WebAssembly.Instance(new WebAssembly.Module(wasm), {}).exports));
}

/** The memory of a live run that has not begun. */
export function newMemory() {
  return new Uint32Array(LIVE);
}

/** A report that has no journals yet; long enough for every table. */
export function newReport() {
  return new BigUint64Array(REPORT_MAX);
}

/**
 * What a report says, for a table with so many states and inputs.
 * @param {BigUint64Array} report @param {number} states @param {number} inputs
 */
export function readReport(report, states, inputs) {
  const numbers = (/** @type {number} */ from, /** @type {number} */ count) => Array.from(report.subarray(from, from + count), Number);
  return {
    journals: Number(report[0]),
    dwell: numbers(1, states),
    pairs: Array.from({ length: states }, (_, q) => numbers(1 + states + q * inputs, inputs)),
    entries: numbers(1 + states + states * inputs, states),
  };
}
