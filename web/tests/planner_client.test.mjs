// How a question is asked: how many requests it takes, what is kept, what is fetched ahead, and what it hands out.
import assert from 'node:assert/strict';
import { test } from 'node:test';
import { PageMap, pages, plan, planMany, profile, profileMany, stops } from '../planner.mjs';
import { changesNear } from '../planner/near.mjs';
import { compareIds, decodeId, encodeId, readBase, readPageUrl, secondsOf } from '../planner/texts.mjs';
import { Stub, at, connection, date, tinyStub } from './planner_stub.mjs';

const QUESTION = { from: 'A', to: 'D', leave: date('08:00') };

/** A line of trains every ten minutes for so many hours from 08:00 on, from A by B to C; a ride takes 40 minutes. */
function line(hours, more = {}) {
  const trains = Array.from({ length: 6 * hours }, (_, place) => {
    const departs = at('08:00') + 600 * place;
    const trip = `T${String(place).padStart(3, '0')}`;
    return [connection(trip, 1, 'A', departs, 'B', departs + 1200), connection(trip, 2, 'B', departs + 1260, 'C', departs + 2400)];
  });
  return new Stub({ versions: [[0, trains.flat()]], stops: ['A', 'B', 'C'], changes: [['B', 'B', 120]], ...more });
}

function ask(stub, more = {}) {
  return plan({ base: stub.base, fetch: stub.fetch, ...QUESTION, ...more });
}

test('the worked example of docs/USAGE.md is planned, with its rides, its change and its requests', async () => {
  const stub = tinyStub();
  const answer = await ask(stub, { known: date('06:59'), cache: null });
  const [first, change, second] = answer.journey.legs;
  assert.deepEqual([answer.version, answer.pages, answer.requests], [new Date(0), 2, 4]);
  assert.deepEqual([answer.journey.departs, answer.journey.arrives], [date('08:00'), date('08:31')]);
  assert.deepEqual(change, { kind: 'change', from: 'B', to: 'B', seconds: 120 });
  assert.deepEqual(first, {
    kind: 'ride',
    base: 'http://lc.example/',
    run: 'T1/20240501/-',
    trip: 'T1',
    date: '20240501',
    start: null,
    route: null,
    from: 'A',
    to: 'B',
    departs: date('08:00'),
    arrives: date('08:10'),
    departureDelay: 0,
    arrivalDelay: 0,
    calls: [
      { stop: 'A', arrives: null, arrivalDelay: null, departs: date('08:00'), departureDelay: 0, sequence: 1 },
      { stop: 'B', arrives: date('08:10'), arrivalDelay: 0, departs: null, departureDelay: null, sequence: null },
    ],
  });
  assert.deepEqual([second.trip, second.departs, second.arrives], ['T3', date('08:12'), date('08:31')]);
});

test('a version is known at a moment: before a message and after it', async () => {
  const stub = tinyStub();
  for (const [known, version, arrives] of [[undefined, '07:00', '08:40'], ['07:00', '07:00', '08:40'], ['06:59', null, '08:31']]) {
    const answer = await ask(stub, { known: known && date(known), cache: null });
    assert.deepEqual(answer.version, version ? date(version) : new Date(0));
    assert.deepEqual(answer.journey.arrives, date(arrives));
  }
  const late = (await ask(stub, { cache: null })).journey.legs[0];
  assert.deepEqual([late.departureDelay, late.arrivalDelay], [60, 60]);
});

test('known is sent as Accept-Datetime, to the time gate alone', async () => {
  const stub = tinyStub();
  const sent = [];
  const fetch = (url, options) => {
    sent.push([url.slice(stub.base.length).split('?')[0], options.headers?.['Accept-Datetime']]);
    return stub.fetch(url, options);
  };
  await ask(stub, { known: new Date('2024-05-01T06:59:59.900Z'), fetch, cache: null });
  assert.deepEqual(sent.sort(), [
    ['connections', 'Wed, 01 May 2024 06:59:59 GMT'],
    ['memento/connections', undefined],
    ['memento/connections', undefined],
    ['stops', undefined],
  ]);
});

test('a fraction of a second counts: who leaves after it leaves at the next second', async () => {
  const stub = line(2);
  const answer = await ask(stub, { to: 'C', leave: new Date(date('08:00').getTime() + 1) });
  assert.deepEqual(answer.journey.departs, date('08:10'));
  const back = await ask(stub, { to: 'C', leave: undefined, arrive: new Date(date('08:50').getTime() - 1) });
  assert.deepEqual(back.journey.arrives, date('08:40'));
});

test('what is kept is not asked for again: a warm question asks the time gate alone', async () => {
  const stub = tinyStub();
  const cache = new PageMap();
  assert.equal((await ask(stub, { cache })).requests, 4);
  const again = await ask(stub, { cache });
  assert.deepEqual([again.requests, again.pages], [1, 2]);
  assert.deepEqual(again.journey.arrives, date('08:40'));
  cache.clear();
  assert.equal((await ask(stub, { cache })).requests, 4);
});

test('a page map keeps what was used last, as much as it has room for', async () => {
  const stub = line(4, { span: 600 });
  const question = (cache, leave) => ask(stub, { to: 'C', cache, leave: date(leave) });
  // Five pages: of one connection at 08:00 and 08:10, and of two each at 08:20, 08:30 and 08:40. They weigh 13, and the stops 4.
  const small = new PageMap(8);
  assert.equal((await question(small, '08:00')).requests, 7);
  assert.ok((await question(small, '08:00')).requests >= 5);
  const large = new PageMap(18);
  assert.equal((await question(large, '08:00')).requests, 7);
  assert.equal((await question(large, '08:00')).requests, 1);
  // One page more, of 08:50: the one of 08:00 goes, which was not used for the longest time.
  assert.equal((await question(large, '08:10')).requests, 2);
  assert.equal((await question(large, '08:10')).requests, 1);
});

test('a cache of texts keeps pages for another start of the program', async () => {
  const stub = tinyStub();
  const texts = new Map();
  const store = () => ({ get: async (url) => texts.get(url), put: async (url, text) => void texts.set(url, text) });
  assert.equal((await ask(stub, { cache: store() })).requests, 4);
  assert.equal(texts.size, 2);
  // Another object, as after a reload: the time gate and the stops are asked for, and no page.
  assert.equal((await ask(stub, { cache: store() })).requests, 2);
});

test('a cache may be one of the Cache Storage', async () => {
  const stub = tinyStub();
  const replies = new Map();
  const storage = () => ({ match: async (url) => replies.get(url)?.clone(), put: async (url, reply) => void replies.set(url, reply) });
  await ask(stub, { cache: storage() });
  assert.deepEqual([...replies.values()].map((reply) => reply.headers.get('Content-Type')), ['application/ld+json', 'application/ld+json']);
  assert.equal((await ask(stub, { cache: storage() })).requests, 2);
});

test('nothing is fetched ahead unless it is asked for', async () => {
  const stub = line(12);
  const open = [];
  const fetch = async (url, options) => {
    if (url.includes('memento')) open.push(url);
    return stub.fetch(url, options);
  };
  const answer = await ask(stub, { to: 'C', fetch, cache: null });
  // 08:00 to 08:40: the pages of 08:00 and 08:30, whose last departure of 08:51 is at the arrival or later.
  assert.deepEqual([answer.pages, answer.requests, open.length], [2, 4, 2]);
});

test('at most four pages are fetched ahead, and none that cannot help once the best is known', async () => {
  const stub = line(12);
  for (let ahead = 0; ahead <= 4; ahead += 1) {
    stub.requests.length = 0;
    const span = { leave: date('08:00'), until: date('12:00') };
    const generator = profile({ base: stub.base, fetch: stub.fetch, from: 'A', to: 'C', ...span, cache: null, ahead });
    const first = await generator.next();
    assert.equal(first.value.journey.arrives.getTime(), at('08:40') * 1000);
    // Who looks at the first journey for long finds no more pages fetched than may be needed for it.
    await new Promise((resolve) => setTimeout(resolve, 20));
    const fetched = stub.requests.filter((url) => url.includes('memento')).length;
    assert.ok(fetched <= first.value.pages + ahead, `${fetched} pages with ${ahead} ahead`);
    assert.ok(fetched <= 3, `${fetched} pages: those that begin at 09:00 cannot help`);
    await generator.return();
  }
});

test('a profile that is left asks for nothing more', async () => {
  const stub = line(12);
  const span = { leave: date('08:00'), until: date('18:00') };
  for await (const { journey } of profile({ base: stub.base, fetch: stub.fetch, from: 'A', to: 'C', ...span, cache: null })) {
    assert.ok(journey);
    break;
  }
  const count = stub.requests.length;
  await new Promise((resolve) => setTimeout(resolve, 20));
  assert.equal(stub.requests.length, count);
});

test('a profile goes on where another one ended', async () => {
  const stub = line(3);
  const leaving = async (leave, until) => {
    const found = [];
    for await (const { journey } of profile({ base: stub.base, fetch: stub.fetch, from: 'A', to: 'C', leave, until })) {
      found.push(journey.departs.toISOString().slice(11, 16));
    }
    return found;
  };
  assert.deepEqual(await leaving(date('08:00'), date('08:20')), ['08:00', '08:10', '08:20']);
  assert.deepEqual(await leaving(date('08:20:01'), date('08:50')), ['08:30', '08:40', '08:50']);
});

test('progress says how far a question has come', async () => {
  const seen = [];
  const answer = await ask(line(12, { span: 600 }), { to: 'C', cache: null, progress: (state) => seen.push(state) });
  assert.equal(seen.length, answer.pages);
  assert.deepEqual(seen.map((state) => state.pages), [1, 2, 3, 4, 5]);
  assert.deepEqual(seen.map((state) => state.reached), ['08:00', '08:10', '08:21', '08:31', '08:41'].map(date));
  assert.deepEqual(seen.map((state) => state.best), [null, null, ...['08:40', '08:40', '08:40'].map(date)]);
});

test('the route of a ride is that of the names, where there are some', async () => {
  const names = { trips: { T1: { route: 'R1' } } };
  const { journey } = await ask(tinyStub(), { names, cache: null });
  assert.deepEqual(journey.legs.filter(({ kind }) => kind === 'ride').map(({ route }) => route), ['R1', null]);
});

test('a browser follows the redirect on its own, and a kept page is not read again', async () => {
  const stub = tinyStub();
  const { base, stop } = await stub.listen();
  globalThis.document = {};
  try {
    const cache = new PageMap();
    const cold = await plan({ ...QUESTION, base, cache });
    assert.deepEqual([cold.requests, cold.journey.arrives], [4, date('08:40')]);
    const warm = await plan({ ...QUESTION, base, cache });
    assert.deepEqual([warm.requests, warm.journey.arrives], [2, date('08:40')]);
  } finally {
    delete globalThis.document;
    await stop();
  }
});

test('over HTTP a question takes as many requests as it says', async () => {
  const stub = tinyStub();
  const { base, stop } = await stub.listen();
  const { requests } = await plan({ ...QUESTION, base, cache: null });
  assert.equal(stub.requests.length, requests);
  await stop();
});

test('stops are handed out from the cache that plan uses', async () => {
  const stub = tinyStub();
  const cache = new PageMap();
  const document = await stops({ base: stub.base, fetch: stub.fetch, cache });
  assert.deepEqual(document.stops.map(({ id }) => id), ['A', 'B', 'C', 'D', 'E', 'F']);
  assert.equal((await ask(stub, { cache })).requests, 3);
});

test('the connections of a span are handed out page after page', async () => {
  const stub = line(2);
  const found = [];
  for await (const page of pages({ base: stub.base, fetch: stub.fetch, since: date('08:10'), until: date('09:00'), cache: null })) {
    assert.match(page.url, /memento/);
    assert.deepEqual(page.version, new Date(0));
    found.push(...page.connections);
  }
  const wanted = ['08:10 A', '08:20 A', '08:21 B', '08:30 A', '08:31 B', '08:40 A', '08:41 B', '08:50 A', '08:51 B', '09:00 A'];
  assert.deepEqual(found.map(({ departs, from }) => `${departs.toISOString().slice(11, 16)} ${from}`), wanted);
  assert.deepEqual([found[0].run, found[0].trip, found[0].sequence, found[0].to, found[0].arrives], ['T001/20240501/-', 'T001', 1, 'B', date('08:30')]);
});

/** Two publishers that share a stop under two ids, or two stops that are near. */
function partners() {
  const there = [connection('T', 1, 'a', at('08:00'), 'hub', at('08:20'))];
  const on = [connection('T', 1, 'HUB', at('08:25'), 'b', at('08:40'))];
  const one = new Stub({ base: 'http://one.example/', versions: [[0, there]], stops: ['a', 'hub'], changes: [['hub', 'hub', 60]] });
  const other = new Stub({ base: 'http://two.example/', versions: [[0, on]], stops: ['HUB', 'b'], changes: [['HUB', 'HUB', 240]] });
  const fetch = (url, options) => (url.startsWith(one.base) ? one : other).fetch(url, options);
  return { one, other, question: { from: 'a', to: 'b', leave: date('08:00'), fetch, cache: null } };
}

test('stops of several publishers are one by a table', async () => {
  const { one, other, question } = partners();
  const stop = (id) => ({ HUB: 'hub' })[id] ?? id;
  const { journey, versions } = await planMany([{ base: one.base }, { base: other.base, stop }], question);
  assert.deepEqual(journey.arrives, date('08:40'));
  // Two runs of one name are two runs where their publishers are two. The shorter of the two changes counts.
  assert.deepEqual(journey.legs.map(({ kind, base, seconds }) => [kind, base, seconds]), [
    ['ride', one.base, undefined],
    ['change', undefined, 60],
    ['ride', other.base, undefined],
  ]);
  assert.equal(versions.length, 2);
  assert.equal((await planMany([{ base: one.base }, { base: other.base }], question)).journey, null);
});

test('a profile may be over several publishers', async () => {
  const { one, other, question } = partners();
  const stop = (id) => ({ HUB: 'hub' })[id] ?? id;
  const found = [];
  for await (const answer of profileMany([{ base: one.base }, { base: other.base, stop }], { ...question, until: date('09:00') })) found.push(answer);
  assert.deepEqual(found.map(({ journey, versions }) => [journey.departs, journey.arrives, versions.length]), [[date('08:00'), date('08:40'), 2]]);
});

test('stops of several publishers have a change between them where they are near', async () => {
  const { one, other, question } = partners();
  // A hundredth of a degree of latitude is 1,112 m, so that these are 200 m apart, to the metre.
  const names = [{ stops: { hub: { lat: 50, lon: 4 } } }, { stops: { HUB: { lat: 50.0018, lon: 4 }, b: { lat: 51, lon: 4 } } }];
  const both = [
    { base: one.base, names: names[0] },
    { base: other.base, names: names[1] },
  ];
  const { journey } = await planMany(both, { ...question, near: { metres: 250 } });
  assert.deepEqual(journey.legs[1], { kind: 'change', from: 'hub', to: 'HUB', seconds: 201 });
  assert.equal((await planMany(both, { ...question, near: { metres: 150 } })).journey, null);
  assert.equal((await planMany(both, { ...question, near: { metres: 250, pace: 0.5 } })).journey, null);
});

test('near places are found everywhere: at the pole, across the date line, and each pair once', () => {
  const partner = (...places) => ({ names: { stops: Object.fromEntries(places) } });
  const cases = [
    [[['a', { lat: 0, lon: 179.9999 }]], [['b', { lat: 0, lon: -179.9999 }]]],
    [[['a', { lat: 89.9999, lon: 0 }]], [['b', { lat: 89.9999, lon: 180 }]]],
    [[['a', { lat: 50, lon: 4 }]], [['b', { lat: 50, lon: 4 }], ['c', { lat: 50.1, lon: 4 }], ['d', {}]]],
  ];
  for (const [one, other] of cases) {
    const changes = changesNear([partner(...one), partner(...other)], { metres: 100 });
    assert.deepEqual(changes.map(({ from, to }) => `${from} ${to}`).sort(), ['a b', 'b a']);
    assert.ok(changes.every(({ seconds }) => seconds === 120));
  }
});

test('moments have one spelling, and exist', () => {
  assert.equal(secondsOf('2024-05-01T08:00:00.000Z'), 1714550400);
  assert.equal(secondsOf('2024-05-01T08:00:00Z'), 1714550400);
  assert.equal(secondsOf('2024-05-01T08:00:00.999Z'), 1714550400);
  assert.equal(secondsOf('2024-02-29T23:59:59.000Z'), 1709251199);
  const days = ['2023-02-29T08:00:00.000Z', '2024-13-01T08:00:00Z'];
  const none = [...days, '2024-05-01T24:00:00Z', '2024-05-01T08:60:00Z', '2024-05-01 08:00:00Z', '2024-05-01T08:00Z', '', null, 7];
  for (const text of none) assert.ok(Number.isNaN(secondsOf(text)), String(text));
});

test('ids have one spelling', () => {
  for (const [id, text] of [['A', 'A'], ['a b', 'a%20b'], ['é', '%C3%A9'], ["!'()*", '%21%27%28%29%2A'], ['😀', '%F0%9F%98%80'], ['a/b', 'a%2Fb']]) {
    assert.equal(encodeId(id), text);
    assert.equal(decodeId(text), id);
  }
  for (const text of ['', 'a b', '%41', '%c3%a9', '%C3', '%', 'é', '!']) assert.equal(decodeId(text), null, text);
});

test('ids are in the order of their bytes', () => {
  const ordered = ['', 'A', 'AB', 'B', 'a', 'é', '\uFFFF', '😀'];
  for (const [place, id] of ordered.entries()) {
    for (const [other, next] of ordered.entries()) assert.equal(Math.sign(compareIds(id, next)), Math.sign(place - other), `${id} ${next}`);
  }
});

test('a base is as the URL Standard writes it', () => {
  assert.equal(readBase('HTTP://LC.example:80'), 'http://lc.example/');
  assert.equal(readBase('https://lc.example/tiny/'), 'https://lc.example/tiny/');
  const none = ['http://lc.example/tiny', 'http://u:p@lc.example/', 'http://lc.example/#a', 'file:///tmp/', '/tiny/'];
  for (const text of none) assert.equal(readBase(text), null, text);
});

test('the URL of a page has one spelling', () => {
  const base = 'http://lc.example/';
  const url = `${base}memento/connections?version=1970-01-01T00:00:10.000Z&departureTime=1970-01-01T00:01:00.000Z`;
  assert.deepEqual(readPageUrl(base, url), { url, version: 10, departs: 60 });
  const none = [url.replace('.000Z&', 'Z&'), url.replace('.000Z&', '.001Z&'), `${url}&a=b`, url.replace('lc', 'other'), undefined];
  for (const text of none) assert.equal(readPageUrl(base, text), null);
});
