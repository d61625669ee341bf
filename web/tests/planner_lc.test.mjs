// The planner against `lc`: the same answers over feeds and messages drawn by lot, and journeys that the pages of `lc` carry.
//
// PLANNER_QUESTIONS says how many questions are asked of one publisher, 200 if it is not set; a quarter as many are asked over the parts of a feed.
import assert from 'node:assert/strict';
import { readFile, writeFile } from 'node:fs/promises';
import path from 'node:path';
import { test } from 'node:test';
import { OutOfWindow, plan, planMany, profile } from '../planner.mjs';
import { encodeId } from '../planner/texts.mjs';
import { LC, answer, makeFeeds, planned, post, recordOf, serve, testFetch } from './planner_lc.mjs';

const QUESTIONS = Number(process.env.PLANNER_QUESTIONS ?? 200);
const ROWS = 3000;
const FEEDS = 4;
const AT_ONCE = 3;
const MIDNIGHT = Date.parse('2024-05-01T00:00:00Z') / 1000;
const CUTS = ['span:1800', 'span:600', 'count:60', 'whole'];
const skip = LC ? false : 'the program lc is not here';

/** Numbers drawn by lot, the same ones for the same seed. */
function lot(seed) {
  let state = seed;
  return (below) => {
    state = (Math.imul(state, 1103515245) + 12345) & 0x7fffffff;
    return Math.floor((state / 0x80000000) * below);
  };
}

const iso = (moment) => new Date(moment * 1000).toISOString();
const date = (moment) => new Date(moment * 1000);
const oneOf = (draw, list) => list[draw(list.length)];

async function stopsOf(feed) {
  const rows = (await readFile(path.join(feed, 'stops.txt'), 'utf8')).trimEnd().split('\n').slice(1);
  return rows.map((row) => row.split(',')[0]);
}

/** A question drawn by lot: from and to, a moment, a horizon, and what is known: before the message, at it, or all. */
function question(draw, stops) {
  const from = draw(stops.length);
  const to = (from + 1 + draw(stops.length - 1)) % stops.length;
  const known = oneOf(draw, [undefined, MIDNIGHT + 6 * 3600, MIDNIGHT + 7 * 3600, MIDNIGHT + 7 * 3600 + 300]);
  return { from: stops[from], to: stops[to], moment: MIDNIGHT + 4 * 3600 + 60 * draw(20 * 60), horizon: oneOf(draw, [1800, 7200, 20000, 86400]), known };
}

/** The options of `lc` for a question. */
function wordsOf({ horizon, known }) {
  return ['--horizon', String(horizon), ...(known === undefined ? [] : ['--known', iso(known)])];
}

/** The answer of the planner to a question that `lc` is asked by a command. */
async function ask(command, base, { from, to, moment, horizon, known }) {
  const reach = command === 'arrive' ? { arrive: date(moment) } : { leave: date(moment) };
  try {
    return await plan({ base, from, to, ...reach, horizon, known: known && date(known), fewest: command === 'fewest', cache: null, fetch: testFetch });
  } catch (error) {
    if (error instanceof OutOfWindow) return { journey: null };
    throw error;
  }
}

/** The walks and rides of a journey as `lc` prints them. */
function linesOf(journey) {
  return journey.legs
    .filter(({ kind }) => kind !== 'change')
    .map((leg) => {
      const [from, to] = [encodeId(leg.from), encodeId(leg.to)];
      if (leg.kind === 'walk') return `walk ${from} ${to} ${leg.seconds}`;
      const sequences = `${leg.calls[0].sequence} ${leg.calls.at(-2).sequence}`;
      return `ride ${leg.run.replaceAll('/', ' ')} ${sequences} ${from} ${leg.departs.toISOString()} ${to} ${leg.arrives.toISOString()}`;
    });
}

/** That the pages carry a journey: each connection of each ride is there, in order, as the ride says; each change and walk is listed, and fits. */
function testCarried({ base, connections, places, document }, { from, to }, { legs, departs, arrives }) {
  const seconds = (one, other) => document.changes.find((change) => change.from === one && change.to === other)?.seconds;
  const isEnd = (stop, named) => stop === named || document.stops.find(({ id }) => id === stop).parent === named;
  let now = departs.getTime();
  let stop = legs[0].from;
  assert.ok(isEnd(stop, from), 'it begins where it is asked to');
  let last = -1;
  for (const leg of legs) {
    assert.equal(leg.from, stop, 'a leg begins where the one before it ended');
    if (leg.kind === 'ride') {
      const entries = leg.calls.slice(0, -1).map(({ sequence }) => places.get(`${base}connections/${leg.run}/${sequence}`));
      entries.forEach((place) => {
        assert.ok(place > last, 'connections are there, in order');
        last = place;
      });
      const ride = entries.map((place) => connections[place]);
      ride.forEach((entry, at) => {
        const [call, next] = [leg.calls[at], leg.calls[at + 1]];
        assert.equal(entry.departureStop, `${base}stops/${encodeId(call.stop)}`);
        assert.equal(entry.arrivalStop, `${base}stops/${encodeId(next.stop)}`);
        assert.deepEqual([entry.departureTime, entry.arrivalTime], [call.departs.toISOString(), next.arrives.toISOString()]);
        assert.deepEqual([entry.departureDelay, entry.arrivalDelay], [call.departureDelay, next.arrivalDelay]);
      });
      assert.ok(leg.departs.getTime() >= now, 'a ride is caught');
      assert.deepEqual([leg.departs, leg.arrives], [leg.calls[0].departs, leg.calls.at(-1).arrives]);
      assert.deepEqual([leg.departureDelay, leg.arrivalDelay], [ride[0].departureDelay, ride.at(-1).arrivalDelay]);
      assert.deepEqual([ride[0]['gtfs:pickupType'], ride.at(-1)['gtfs:dropOffType']], ['gtfs:Regular', 'gtfs:Regular']);
      now = leg.arrives.getTime();
    } else {
      assert.equal(leg.seconds, seconds(leg.from, leg.to), 'a change is listed');
      now += 1000 * leg.seconds;
    }
    stop = leg.to;
  }
  assert.ok(isEnd(stop, to), 'it ends where it is asked to');
  assert.equal(now, arrives.getTime());
  assert.equal(legs.filter(({ kind }) => kind === 'change').length, legs.filter(({ kind }) => kind === 'ride').length - 1, 'a change is between each two rides');
}

/** Lets some workers go through a list of jobs. */
async function inTurn(jobs, work) {
  let next = 0;
  const worker = async () => {
    while (next < jobs.length) {
      next += 1;
      await work(jobs[next - 1]);
    }
  };
  await Promise.all(Array.from({ length: AT_ONCE }, worker));
}

test(`${QUESTIONS} questions have the answers of lc, in as many requests, by journeys that its pages carry`, { skip }, async (context) => {
  const seen = { journeys: 0, none: 0, rides: 0, walks: 0, past: 0, added: 0, headway: 0, same: 0, stations: 0 };
  for (let number = 0; number < FEEDS; number += 1) {
    const { folder, remove } = await makeFeeds(ROWS, number + 1, 1);
    const feed = path.join(folder, 'whole');
    const words = ['--cuts', CUTS[number % CUTS.length], '--update', path.join(folder, 'whole.pb')];
    const { base, stop } = await serve(feed, words);
    const records = new Map();
    const stops = await stopsOf(feed);
    const draw = lot(number);
    const jobs = Array.from({ length: Math.ceil(QUESTIONS / FEEDS) }, () => {
      return { command: oneOf(draw, ['ask', 'arrive', 'fewest']), asked: question(draw, stops) };
    });
    await inTurn(jobs, async ({ command, asked }) => {
      const told = JSON.stringify({ command, ...asked, feed: number + 1 });
      const wanted = await answer(command, feed, { ...asked, moment: iso(asked.moment) }, [...words, ...wordsOf(asked)]);
      const got = await ask(command, base, asked);
      assert.equal(got.journey === null, wanted.journey === null, told);
      if (got.version) {
        assert.equal(got.version / 1000, wanted.version, told);
        assert.equal(got.requests, wanted.exchanges, told);
        assert.equal(got.pages, wanted.exchanges - 2, told);
      }
      if (!got.journey) {
        seen.none += 1;
        return;
      }
      const { departs, arrives } = got.journey;
      assert.deepEqual(departs, date(wanted.journey.leaves), told);
      // Of the journeys that leave at one moment `arrive` may print any.
      if (command !== 'arrive') assert.deepEqual(arrives, date(wanted.journey.arrives), told);
      const lines = linesOf(got.journey);
      if (command === 'fewest') assert.equal(lines.filter((line) => line.startsWith('ride')).length, wanted.journey.rides, told);
      if (!records.has(wanted.version)) records.set(wanted.version, recordOf(base, wanted.version));
      testCarried(await records.get(wanted.version), asked, got.journey);
      seen.journeys += 1;
      seen.rides += lines.filter((line) => line.startsWith('ride')).length;
      seen.walks += lines.filter((line) => line.startsWith('walk')).length;
      seen.past += Number(wanted.version === 0);
      seen.added += lines.filter((line) => line.startsWith('ride added')).length;
      seen.headway += lines.filter((line) => /^ride \S+ \d+ \d{6} /.test(line)).length;
      seen.stations += Number([asked.from, asked.to].some((id) => id.startsWith('p')));
      seen.same += Number(lines.join() === wanted.journey.lines.join());
    });
    await stop();
    await remove();
  }
  context.diagnostic(`seen ${JSON.stringify(seen)}`);
  for (const [what, count] of Object.entries(seen)) assert.ok(count > 0, `no question with ${what}`);
  assert.ok(seen.journeys > QUESTIONS / 3, `${seen.journeys} journeys`);
});

test('a script of questions over ten versions has the answers of lc plan', { skip }, async () => {
  const { folder, remove } = await makeFeeds(ROWS, 100, 1);
  const feed = path.join(folder, 'whole');
  const { base, stop } = await serve(feed, ['--accept-updates']);
  for (let place = 0; place < 10; place += 1) {
    assert.equal(await post(base, await readFile(path.join(folder, `u00${place}.pb`))), 204);
  }
  const stops = await stopsOf(feed);
  const draw = lot(100);
  const knownOf = () => oneOf(draw, [undefined, MIDNIGHT + 7 * 3600 - 60 + 60 * draw(12)]);
  const asked = Array.from({ length: Math.ceil(QUESTIONS / 2) }, () => ({ ...question(draw, stops), known: knownOf() }));
  const script = path.join(folder, 'asks.csv');
  const rows = asked.map(({ from, to, moment, known, horizon }) => `ask,${from},${to},${iso(moment)},${known === undefined ? '' : iso(known)},${horizon}`);
  await writeFile(script, `${rows.join('\n')}\n`);
  const wanted = await planned(base, script);
  assert.equal(wanted.length, asked.length);
  const versions = new Set();
  for (const [place, one] of asked.entries()) {
    const got = await ask('ask', base, one);
    assert.equal(got.journey === null, wanted[place].journey === null, rows[place]);
    if (!got.journey) continue;
    versions.add(wanted[place].version);
    const { version, journey } = wanted[place];
    assert.deepEqual([got.version, got.journey.departs, got.journey.arrives], [version, journey.leaves, journey.arrives].map(date), rows[place]);
  }
  assert.ok(versions.size >= 8, `${versions.size} versions`);
  await stop();
  await remove();
});

test(`over the parts of a feed ${QUESTIONS / 4} questions have the answers of lc over the whole`, { skip }, async () => {
  const { folder, remove } = await makeFeeds(ROWS, 200, 3);
  const feed = path.join(folder, 'whole');
  const words = ['--update', path.join(folder, 'whole.pb')];
  const servePart = (part) => serve(path.join(folder, `part${part}`), ['--cuts', CUTS[part], '--update', path.join(folder, `part${part}.pb`)]);
  const parts = await Promise.all([0, 1, 2].map(servePart));
  const stops = await stopsOf(feed);
  const draw = lot(200);
  const jobs = Array.from({ length: Math.ceil(QUESTIONS / 4) }, () => ({ command: oneOf(draw, ['ask', 'arrive']), asked: question(draw, stops) }));
  let crossing = 0;
  await inTurn(jobs, async ({ command, asked }) => {
    const { from, to, moment, horizon, known } = asked;
    const wanted = await answer(command, feed, { from, to, moment: iso(moment) }, [...words, ...wordsOf(asked)]);
    const reach = command === 'arrive' ? { arrive: date(moment) } : { leave: date(moment) };
    let journey = null;
    try {
      const bases = parts.map(({ base }) => ({ base }));
      ({ journey } = await planMany(bases, { from, to, ...reach, horizon, known: known && date(known), cache: null, fetch: testFetch }));
    } catch (error) {
      assert.ok(error instanceof OutOfWindow);
    }
    const told = JSON.stringify({ command, ...asked });
    assert.equal(journey === null, wanted.journey === null, told);
    if (!journey) return;
    if (command === 'arrive') assert.equal(journey.departs / 1000, wanted.journey.leaves, told);
    else assert.equal(journey.arrives / 1000, wanted.journey.arrives, told);
    crossing += Number(new Set(journey.legs.filter(({ kind }) => kind === 'ride').map(({ base }) => base)).size > 1);
  });
  assert.ok(crossing > jobs.length / 8, `${crossing} journeys over several parts`);
  await Promise.all(parts.map(({ stop }) => stop()));
  await remove();
});

test('a profile has the journeys that lc finds by asking from each leaving and each arrival', { skip }, async () => {
  const { folder, remove } = await makeFeeds(ROWS, 300, 1);
  const feed = path.join(folder, 'whole');
  const { base, stop } = await serve(feed);
  const stops = await stopsOf(feed);
  const draw = lot(300);
  let count = 0;
  for (let number = 0; number < 4; number += 1) {
    const { from, to } = question(draw, stops);
    const leave = MIDNIGHT + 3600 * (7 + draw(6));
    const until = leave + 3 * 3600;
    let last = leave;
    for await (const { journey } of profile({ base, from, to, leave: date(leave), until: date(until), fetch: testFetch, cache: null })) {
      const [leaves, arrives] = [journey.departs / 1000, journey.arrives / 1000];
      const earliest = await answer('ask', feed, { from, to, moment: iso(last) }, ['--horizon', String(until + 86400 - last)]);
      const latest = await answer('arrive', feed, { from, to, moment: iso(arrives) }, []);
      assert.deepEqual([earliest.journey.arrives, latest.journey.leaves], [arrives, leaves], JSON.stringify({ from, to, last }));
      last = leaves + 1;
      count += 1;
    }
    const next = await answer('ask', feed, { from, to, moment: iso(last) }, ['--horizon', String(until + 86400 - last)]);
    const latest = next.journey && (await answer('arrive', feed, { from, to, moment: iso(next.journey.arrives) }, []));
    assert.ok(!latest || latest.journey.leaves > until, 'the profile has all journeys that leave in its span');
  }
  assert.ok(count > 4, `${count} journeys`);
  await stop();
  await remove();
});
