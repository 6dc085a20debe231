/** A run made event by event: its texts are those of the whole, and what is refused leaves it as it was. */

import assert from 'node:assert/strict';
import { test } from 'node:test';
import { FORMS, decodeRecords, encodeTable } from '../fields.js';
import { Live } from '../live.js';
import { Chance } from './chance.js';
import { library, sameBytes } from './core.js';
import { drawTable } from './draw.js';

const EVENTS = ['change', 'poll', 'test', 'tick'];

/** A run under a table, with its first input. */
function begin(chance) {
  const drawn = drawTable(chance);
  const table = encodeTable(drawn);
  if (!library.checkTable(table).ok) return null;
  const live = new Live(library, { table, cycle: drawn.cycle });
  assert.equal(live.take('input', 0, chance.below(drawn.inputs)), null);
  return { live, table, drawn };
}

/** An event: mostly the one that comes next, at a time that fits. */
function draw(chance, live, { inputs, states }) {
  const kind = chance.percent(60) ? live.next : EVENTS[chance.below(EVENTS.length)];
  const time = chance.percent(90) ? Math.min(live.deadline, live.time + chance.below(3)) : live.time + chance.below(9);
  const value = chance.below(kind === 'change' ? inputs + 1 : kind === 'test' ? 2 : kind === 'tick' ? states : inputs);
  return { kind, time, value, byHand: kind !== 'change' && chance.percent(30) };
}

/** What was refused is refused by the whole as well, at the same record; and nothing of the run has changed. */
function sameRefusal({ form, bytes }, { live, table, before }) {
  assert.deepEqual({ memory: [...live.memory], ...live.bytes }, before);
  const whole = form === 'journal' ? library.checkJournal(table, bytes) : library.run(table, bytes);
  assert.equal(whole.ok, false);
  assert.ok(whole.place >= live.bytes[form].length, `${whole.number} at ${whole.place}`);
}

test('the texts of a live run are accepted at every moment, and the run of its stimulus is its journal', (t) => {
  const chance = new Chance(40);
  const count = { taken: 0, refused: 0, byHand: 0 };
  for (let k = 0; k < 150; k++) {
    const begun = begin(chance);
    if (!begun) continue;
    const { live, table, drawn } = begun;
    for (let n = 0; n < 60; n++) {
      const { kind, time, value, byHand } = draw(chance, live, drawn);
      const before = { memory: [...live.memory], stimulus: [...live.bytes.stimulus], journal: [...live.bytes.journal] };
      const refused = byHand ? live.claim(kind, time, value) : live.take(kind, time, value);
      count[refused ? 'refused' : byHand ? 'byHand' : 'taken']++;
      if (refused) sameRefusal(refused, { live, table, before });
      const ran = library.run(table, live.ended('stimulus'));
      assert.ok(ran.ok && sameBytes(ran.bytes, live.ended('journal')));
    }
    assert.equal(decodeRecords(live.ended('journal'), 'journal').length, live.records + 1);
  }
  for (const many of Object.values(count)) assert.ok(many > 500, JSON.stringify(count));
  t.diagnostic(JSON.stringify(count));
});

test('a run is full before its texts are too long to be answered as a whole', () => {
  const chance = new Chance(41);
  for (const changes of [false, true]) {
    let begun = null;
    while (!begun) begun = begin(chance);
    const { live, table } = begun;
    for (let n = 0; !live.full; n++) {
      assert.equal(changes && n % 4 > 0 ? live.take('change', live.time, 0) : live.take(live.next, Math.min(live.time + 1, live.deadline)), null);
    }
    for (const form of ['stimulus', 'journal']) assert.ok(live.ended(form).length <= FORMS[form].max);
    assert.ok(library.checkJournal(table, live.ended('journal')).ok && library.run(table, live.ended('stimulus')).ok);
    assert.ok(live.ended(changes ? 'stimulus' : 'journal').length + 2 * 8 > FORMS[changes ? 'stimulus' : 'journal'].max);
  }
});
