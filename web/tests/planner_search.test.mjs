// What is found, against all journeys of small timetables drawn by lot, counted one by one.
import assert from 'node:assert/strict';
import { test } from 'node:test';
import { plan, planMany, profile } from '../planner.mjs';
import { best, journeys } from './planner_enumeration.mjs';
import { Stub, at, connection } from './planner_stub.mjs';

/** Numbers drawn by lot, the same ones for the same seed (mulberry32). */
function lot(seed) {
  let state = seed;
  return (below) => {
    state = (state + 0x6d2b79f5) | 0;
    let mixed = Math.imul(state ^ (state >>> 15), 1 | state);
    mixed = (mixed + Math.imul(mixed ^ (mixed >>> 7), 61 | mixed)) ^ mixed;
    return ((mixed ^ (mixed >>> 14)) >>> 0) % below;
  };
}

const STOPS = [{ id: 'A' }, { id: 'B' }, { id: 'C' }, { id: 'D' }, { id: 'P' }, { id: 'P1', parent: 'P' }, { id: 'P2', parent: 'P' }];
const START = at('08:00');

/** A run of two to four calls, with times that may stand still, and now and then a call at which one may not board or alight. */
function runOf(draw, trip) {
  const connections = [];
  let from = draw(STOPS.length);
  let departs = START + 60 * draw(60);
  for (let sequence = 1; sequence <= 1 + draw(3); sequence += 1) {
    const to = (from + 1 + draw(STOPS.length - 1)) % STOPS.length;
    const arrives = departs + 60 * draw(12);
    connections.push(connection(trip, sequence, STOPS[from].id, departs, STOPS[to].id, arrives, { boards: draw(8) > 0, alights: draw(8) > 0 }));
    from = to;
    departs = arrives + 60 * draw(2);
  }
  return connections;
}

function timetable(draw) {
  const connections = Array.from({ length: 4 + draw(6) }, (_, place) => runOf(draw, `T${place}`)).flat();
  const pairs = STOPS.flatMap(({ id }) => STOPS.map((other) => [id, other.id, 60 * (1 + draw(6))]));
  const changes = pairs.filter(([one, other]) => (one === other ? draw(8) > 0 : draw(4) === 0));
  return { connections, changes };
}

function ends(draw) {
  const from = draw(STOPS.length);
  const to = (from + 1 + draw(STOPS.length - 1)) % STOPS.length;
  return { from: STOPS[from].id, to: STOPS[to].id };
}

const date = (seconds) => new Date(seconds * 1000);
const rides = (journey) => journey.legs.filter(({ kind }) => kind === 'ride').length;
const spanOf = ({ journey }) => ({ leaves: journey.departs / 1000, arrives: journey.arrives / 1000 });

/** The plan, or one without a journey where nothing departs in the time of the question. */
async function planned(question) {
  try {
    return await plan(question);
  } catch (error) {
    assert.equal(error.name, 'OutOfWindow');
    return { journey: null };
  }
}

/** Cases drawn by lot: a publisher, its timetable and a question. */
function* cases(count, seed) {
  for (let number = 0; number < count; number += 1) {
    const draw = lot(seed + number);
    const { connections, changes } = timetable(draw);
    const stub = new Stub({ versions: [[0, connections]], stops: STOPS, changes, span: 60 * (1 + draw(40)) });
    const moment = START + 60 * draw(80) - 600;
    const horizon = 60 * (1 + draw(120));
    yield { number, draw, stub, connections, changes, moment, horizon, ends: ends(draw), ahead: draw(5) };
  }
}

const COUNT = 250;

test('leaving at a moment, a journey arrives as early as any, in as few rides as any where that is asked', async () => {
  let found = 0;
  for (const { number, stub, connections, changes, moment, horizon, ends: { from, to }, ahead } of cases(COUNT, 1000)) {
    const all = journeys({ connections, stops: STOPS, changes, from, to, leave: moment, end: moment + horizon });
    const question = { base: stub.base, from, to, leave: date(moment), horizon, fetch: stub.fetch, cache: null, ahead };
    const { journey } = await planned(question);
    const { journey: short } = await planned({ ...question, fewest: true });
    assert.equal(journey === null, all.length === 0, `case ${number}`);
    if (!journey) continue;
    found += 1;
    const earliest = Math.min(...all.map(({ arrives }) => arrives));
    assert.equal(journey.arrives / 1000, earliest, `case ${number}`);
    assert.equal(short.arrives / 1000, earliest, `case ${number}`);
    assert.ok(journey.departs / 1000 >= moment, `case ${number}`);
    assert.equal(rides(short), Math.min(...all.filter(({ arrives }) => arrives === earliest).map((one) => one.rides)), `case ${number}`);
  }
  assert.ok(found > COUNT / 5, `${found} journeys`);
});

test('arriving by a moment, a journey leaves as late as any, in as few rides as any where that is asked', async () => {
  let found = 0;
  for (const { number, stub, connections, changes, moment, horizon, ends: { from, to }, ahead } of cases(COUNT, 2000)) {
    const arrive = moment + 1800;
    const all = journeys({ connections, stops: STOPS, changes, from, to, leave: arrive - horizon, end: arrive });
    const question = { base: stub.base, from, to, arrive: date(arrive), horizon, fetch: stub.fetch, cache: null, ahead };
    const { journey } = await planned(question);
    const { journey: short } = await planned({ ...question, fewest: true });
    assert.equal(journey === null, all.length === 0, `case ${number}`);
    if (!journey) continue;
    found += 1;
    const latest = Math.max(...all.map(({ leaves }) => leaves));
    assert.equal(journey.departs / 1000, latest, `case ${number}`);
    assert.equal(short.departs / 1000, latest, `case ${number}`);
    assert.ok(journey.arrives / 1000 <= arrive, `case ${number}`);
    assert.equal(rides(short), Math.min(...all.filter(({ leaves }) => leaves === latest).map((one) => one.rides)), `case ${number}`);
  }
  assert.ok(found > COUNT / 5, `${found} journeys`);
});

test('a profile has each best journey of a span once, in both directions', async () => {
  let found = 0;
  for (const { number, draw, stub, connections, changes, moment, horizon, ends: { from, to }, ahead } of cases(COUNT, 3000)) {
    const span = 60 * draw(60);
    const isBack = draw(2) === 0;
    const within = isBack ? { leave: moment - span - horizon, end: moment } : { leave: moment, end: moment + span + horizon };
    const all = journeys({ connections, stops: STOPS, changes, from, to, ...within });
    const wanted = best(all).filter(({ leaves, arrives }) => (isBack ? arrives >= moment - span : leaves <= moment + span));
    const reach = isBack ? { arrive: date(moment), until: date(moment - span) } : { leave: date(moment), until: date(moment + span) };
    const got = [];
    try {
      for await (const answer of profile({ base: stub.base, from, to, ...reach, horizon, fewest: true, fetch: stub.fetch, cache: null, ahead })) {
        got.push({ ...spanOf(answer), rides: rides(answer.journey) });
      }
    } catch (error) {
      assert.equal(error.name, 'OutOfWindow');
    }
    if (isBack) got.reverse();
    found += got.length;
    assert.deepEqual(got, wanted, `case ${number}`);
  }
  assert.ok(found > COUNT / 5, `${found} journeys`);
});

test('over the parts of a split timetable a journey is as good as over the whole', async () => {
  let found = 0;
  for (const { number, draw, connections, changes, moment, horizon, ends: { from, to }, ahead } of cases(COUNT, 4000)) {
    const parts = [[], [], []];
    const placeOf = new Map();
    for (const entry of connections) {
      if (!placeOf.has(entry.trip)) placeOf.set(entry.trip, draw(3));
      parts[placeOf.get(entry.trip)].push(entry);
    }
    const stubs = parts.map((part, place) => {
      return new Stub({ base: `http://part${place}.example/`, versions: [[place, part]], stops: STOPS, changes, span: 60 * (1 + draw(40)) });
    });
    const fetch = (url, options) => stubs.find(({ base }) => url.startsWith(base)).fetch(url, options);
    const isBack = draw(2) === 0;
    const reach = isBack ? { arrive: date(moment + 1800) } : { leave: date(moment) };
    const span = isBack ? { leave: moment + 1800 - horizon, end: moment + 1800 } : { leave: moment, end: moment + horizon };
    const all = journeys({ connections, stops: STOPS, changes, from, to, ...span });
    let journey = null;
    try {
      const answer = await planMany(stubs.map(({ base }) => ({ base })), { from, to, ...reach, horizon, fewest: true, fetch, cache: null, ahead });
      journey = answer.journey;
      assert.deepEqual(answer.versions.map(Number), [0, 1000, 2000]);
    } catch (error) {
      assert.equal(error.name, 'OutOfWindow');
    }
    assert.equal(journey === null, all.length === 0, `case ${number}`);
    if (!journey) continue;
    found += 1;
    const kept = isBack ? journey.departs / 1000 : journey.arrives / 1000;
    assert.equal(kept, isBack ? Math.max(...all.map(({ leaves }) => leaves)) : Math.min(...all.map(({ arrives }) => arrives)), `case ${number}`);
  }
  assert.ok(found > COUNT / 5, `${found} journeys`);
});
