// What goes wrong: each failure has its error, which says what it is about and has a message for people.
import assert from 'node:assert/strict';
import net from 'node:net';
import { test } from 'node:test';
import { BadQuestion, NoSuchStop, NotAPage, NotFound, NotKept, OutOfWindow, PageMap, PlannerError, Unreachable } from '../planner.mjs';
import { plan, planMany, profile } from '../planner.mjs';
import { Stub, at, connection, date, tinyStub } from './planner_stub.mjs';

const QUESTION = { from: 'A', to: 'D', leave: date('08:00') };

/** The error with which a question ends. */
async function failure(promise) {
  try {
    await promise;
  } catch (error) {
    return error;
  }
  return assert.fail('there is an answer');
}

function ask(stub, more = {}) {
  return plan({ base: stub.base, fetch: stub.fetch, cache: null, ...QUESTION, ...more });
}

/** A tiny publisher whose answers a test alters: `alter` gets each answer, and the path and query of its request. */
function altered(alter, options) {
  const stub = tinyStub(options);
  const answer = stub.answer.bind(stub);
  stub.answer = (target, known) => alter(answer(target, known), target.slice(stub.base.length), stub);
  return stub;
}

/** A tiny publisher with a spoiled page for the moment of leaving. */
function spoiled(spoil) {
  return altered((answer, path, stub) => {
    if (!path.startsWith('memento') || !path.includes('departureTime=2024-05-01T08:00')) return answer;
    const page = JSON.parse(answer.body);
    return { ...answer, body: JSON.stringify(spoil(page, stub) ?? page) };
  });
}

/** A base at a free port, where each connection is given to `serve`. */
async function listen(serve) {
  const server = net.createServer((socket) => serve(socket.on('error', () => {}))).listen(0, '127.0.0.1');
  await new Promise((resolve) => server.once('listening', resolve));
  return { base: `http://127.0.0.1:${server.address().port}/`, close: () => new Promise((resolve) => server.close(resolve)) };
}

test('a publisher that is down is Unreachable', async () => {
  const { base, close } = await listen(() => {});
  await close();
  const error = await failure(plan({ ...QUESTION, base, cache: null }));
  assert.ok(error instanceof Unreachable && error instanceof PlannerError);
  assert.ok(error.url.startsWith(base));
  assert.equal(error.message, `${error.url} cannot be reached`);
  assert.ok(error.cause instanceof TypeError);
});

test('a publisher that says nothing is Unreachable once the wait is over', async () => {
  const { base, close } = await listen(() => {});
  const error = await failure(plan({ ...QUESTION, base, cache: null, timeout: 50 }));
  assert.ok(error instanceof Unreachable);
  assert.match(error.message, /is not answered within 50 milliseconds$/);
  void close();
});

test('a publisher that begins a page and does not go on is Unreachable once the wait is over', async () => {
  const stub = tinyStub();
  const { base, close } = await listen((socket) => socket.once('data', () => socket.write('HTTP/1.1 200 OK\r\nContent-Length: 1000\r\n\r\n{')));
  const fetched = (url, options) => (url.includes('memento') ? fetch(base, options) : stub.fetch(url, options));
  const error = await failure(ask(stub, { fetch: fetched, timeout: 200 }));
  assert.ok(error instanceof Unreachable);
  assert.match(error.message, /is not answered within 200 milliseconds$/);
  void close();
});

test('a publisher that breaks off is Unreachable', async () => {
  const { base, close } = await listen((socket) => socket.once('data', () => socket.destroy()));
  const error = await failure(plan({ ...QUESTION, base, cache: null }));
  assert.ok(error instanceof Unreachable);
  await close();
});

for (const status of [429, 500, 503]) {
  test(`a status of ${status} is Unreachable, and a later try may succeed`, async () => {
    const error = await failure(ask(altered((answer, path) => (path.startsWith('memento') ? { status, headers: {}, body: '' } : answer))));
    assert.ok(error instanceof Unreachable);
    assert.equal(error.status, status);
    assert.match(error.message, /cannot answer at the time/);
  });
}

test('a base of none is NotFound', async () => {
  const stub = tinyStub();
  const error = await failure(plan({ ...QUESTION, base: 'http://lc.example/none/', fetch: async () => new Response('', { status: 404 }), cache: null }));
  assert.ok(error instanceof NotFound);
  assert.equal(error.status, 404);
  assert.equal(error.version, null);
  assert.match(error.message, /^there is no document at http:\/\/lc.example\/none\//);
  assert.equal(stub.requests.length, 0);
});

test('a version that the publisher has no longer is NotFound, with the version', async () => {
  const error = await failure(ask(altered((answer, path) => (path.startsWith('memento') ? { status: 404, headers: {}, body: '' } : answer))));
  assert.ok(error instanceof NotFound);
  assert.deepEqual(error.version, date('07:00'));
  assert.match(error.message, /^the publisher has no longer the version of the page http:/);
});

test('other statuses are NotAPage, by the status', async () => {
  const error = await failure(ask(altered((answer, path) => (path === 'stops' ? { status: 403, headers: {}, body: '' } : answer))));
  assert.ok(error instanceof NotAPage);
  assert.equal(error.test, 'status 403');
});

test('a time gate that answers with a page is NotAPage', async () => {
  const error = await failure(ask(altered((answer) => (answer.status === 302 ? { status: 200, headers: {}, body: '{}' } : answer))));
  assert.ok(error instanceof NotAPage);
  assert.equal(error.test, 'status 200');
});

for (const [name, location] of [
  ['nowhere', undefined],
  ['to itself, for ever', 'http://lc.example/connections?departureTime=2024-05-01T08:00:00.000Z'],
  ['to another base', 'http://other.example/memento/connections?version=1970-01-01T00:00:00.000Z&departureTime=2024-05-01T08:00:00.000Z'],
  ['to a page in another spelling', '/memento/connections?version=1970-01-01T00:00:00Z&departureTime=2024-05-01T08:00:00Z'],
  ['to no URL', 'http://'],
]) {
  test(`a time gate that leads ${name} is NotAPage`, async () => {
    const headers = location === undefined ? {} : { Location: location };
    const error = await failure(ask(altered((answer) => (answer.status === 302 ? { ...answer, headers } : answer))));
    assert.ok(error instanceof NotAPage);
    assert.equal(error.test, 'location');
    assert.match(error.message, /leads to no page under its base/);
  });
}

test('a time gate may lead by a reference from its own address on', async () => {
  const stub = altered((answer, path, { base }) => {
    return answer.status === 302 ? { ...answer, headers: { Location: answer.headers.Location.slice(base.length - 1) } } : answer;
  });
  assert.equal((await ask(stub)).journey.arrives.getTime(), at('08:40') * 1000);
});

test('a page that redirects is NotAPage', async () => {
  const elsewhere = { status: 302, headers: { Location: '/elsewhere' }, body: '' };
  const error = await failure(ask(altered((answer, path) => (path.startsWith('memento') ? elsewhere : answer))));
  assert.ok(error instanceof NotAPage);
  assert.equal(error.test, 'status 302');
});

const graph = (page) => page['@graph'];
const LIES = [
  ['body', 'is no JSON', () => '{'],
  ['body', 'is a list', () => []],
  ['body', 'has no connections', (page) => delete page['@graph']],
  ['body', 'has a connection without a name', (page) => delete graph(page)[0]['@id']],
  ['body', 'has a connection without a stop', (page) => delete graph(page)[0].departureStop],
  ['body', 'has a connection of another base', (page) => (graph(page)[0]['@id'] = 'http://other.example/connections/T1/20240501/-/1')],
  ['body', 'has a stop of another base', (page) => (graph(page)[0].arrivalStop = 'http://other.example/stops/B')],
  ['body', 'has an id in another spelling', (page) => (graph(page)[0].arrivalStop = 'http://lc.example/stops/%42')],
  ['body', 'has a run without a date', (page) => (graph(page)[0]['@id'] = 'http://lc.example/connections/T1/-/1')],
  ['body', 'has a sequence that is no number', (page) => (graph(page)[0]['@id'] = 'http://lc.example/connections/T1/20240501/-/one')],
  ['body', 'has a moment that is none', (page) => (graph(page)[0].arrivalTime = '2024-05-32T08:00:00.000Z')],
  ['body', 'has a moment in another zone', (page) => (graph(page)[0].arrivalTime = '2024-05-01T10:10:00.000+02:00')],
  ['body', 'has a delay that is a text', (page) => (graph(page)[0].arrivalDelay = '60')],
  ['body', 'has a delay that is null', (page) => (graph(page)[0].departureDelay = null)],
  ['body', 'has a connection that arrives before it departs', (page) => (graph(page)[0].arrivalTime = '2024-05-01T07:59:00.000Z')],
  ['body', 'is out of order', (page) => graph(page).reverse()],
  ['body', 'has a connection twice', (page) => graph(page).push(graph(page).at(-1))],
  ['body', 'leads to a page of another version', (page) => (page['hydra:next'] = page['hydra:next'].replace('2024-05-01T07:00', '1970-01-01T00:00'))],
  ['body', 'leads to no page', (page) => (page['hydra:next'] = 'http://lc.example/stops')],
  ['body', 'leads nowhere', (page) => (page['hydra:next'] = null)],
  ['identity', 'is another page', (page) => (page['@id'] = page['hydra:next'])],
  ['identity', 'is of no name', (page) => delete page['@id']],
  ['advance', 'begins at another moment', (page) => graph(page).shift()],
  ['advance', 'leads back', (page) => (page['hydra:next'] = page['@id'])],
  ['advance', 'is empty and goes on', (page) => (page['@graph'] = [])],
  ['gate', 'is not the one for the moment', (page) => (page['hydra:previous'] = page['@id'].replace('T08:00', 'T07:00')), { leave: date('07:50') }],
];

for (const [name, what, spoil, more] of LIES) {
  test(`a page that ${what} is NotAPage: ${name}`, async () => {
    const stub = spoiled((page) => {
      const value = spoil(page);
      return Array.isArray(value) && value !== page['@graph'] && value.length === 0 ? value : page;
    });
    if (what === 'is no JSON') {
      const answer = stub.answer;
      stub.answer = (target, known) => (target.includes('memento') ? { ...answer(target, known), body: '{' } : answer(target, known));
    }
    const error = await failure(ask(stub, more));
    assert.ok(error instanceof NotAPage, String(error));
    assert.equal(error.test, name);
    assert.match(error.url, /^http:\/\/lc.example\/memento/);
  });
}

test('a page that is sent as a memento of another version is NotAPage: identity', async () => {
  const headers = { 'Memento-Datetime': 'Thu, 01 Jan 1970 00:00:00 GMT' };
  const stub = altered((answer, path) => (path.startsWith('memento') ? { ...answer, headers } : answer));
  assert.equal((await failure(ask(stub))).test, 'identity');
});

test('a page that is sent with no such field is taken: a browser hides it', async () => {
  const stub = altered((answer, path) => (path.startsWith('memento') ? { ...answer, headers: {} } : answer));
  assert.ok((await ask(stub)).journey);
});

test('a page before that is none is NotAPage: retreat', async () => {
  const stub = altered((answer, path) => {
    if (!path.startsWith('memento') || !path.includes('departureTime=2024-05-01T09:00')) return answer;
    const page = JSON.parse(answer.body);
    return { ...answer, body: JSON.stringify({ ...page, 'hydra:previous': page['@id'] }) };
  });
  assert.equal((await failure(ask(stub, { leave: undefined, arrive: date('09:30') }))).test, 'retreat');
});

test('stops that are wrong are NotAPage', async () => {
  const spoils = [
    (value) => ({ ...value, stops: null }),
    (value) => ({ ...value, stops: [...value.stops].reverse() }),
    (value) => ({ ...value, stops: [...value.stops, { id: 'Z', parent: 'Y' }] }),
    (value) => ({ ...value, stops: [...value.stops, { id: '' }] }),
    (value) => ({ ...value, changes: [...value.changes, { from: 'Z', to: 'Z', seconds: 1 }] }),
    (value) => ({ ...value, changes: [...value.changes, { from: 'F', to: 'G', seconds: 0 }] }),
    (value) => ({ ...value, changes: [...value.changes].reverse() }),
  ];
  for (const spoil of spoils) {
    const stub = altered((answer, path) => (path === 'stops' ? { ...answer, body: JSON.stringify(spoil(JSON.parse(answer.body))) } : answer));
    const error = await failure(ask(stub));
    assert.ok(error instanceof NotAPage, String(spoil));
    assert.equal(error.test, 'body', String(spoil));
  }
});

test('a stop that is not there is NoSuchStop, with the end that it is', async () => {
  for (const end of ['from', 'to']) {
    const error = await failure(ask(tinyStub(), { [end]: 'Nowhere' }));
    assert.ok(error instanceof NoSuchStop);
    assert.deepEqual([error.stop, error.end, error.message], ['Nowhere', end, 'there is no stop "Nowhere"']);
  }
});

test('a question before or after the window is OutOfWindow, with its edge', async () => {
  const cases = [
    [{ leave: date('10:00') }, 'after', '09:00'],
    [{ leave: date('05:00'), horizon: 3600 }, 'before', '08:00'],
    [{ leave: undefined, arrive: date('20:00'), horizon: 3600 }, 'after', '09:00'],
    [{ leave: undefined, arrive: date('06:00') }, 'before', '08:00'],
  ];
  for (const [more, side, edge] of cases) {
    const error = await failure(ask(tinyStub(), more));
    assert.ok(error instanceof OutOfWindow, String(error));
    assert.deepEqual([error.side, error.edge], [side, date(edge)]);
    const what = side === 'after' ? 'ends' : 'begins';
    assert.equal(error.message, `the timetable ${what} with the departure of 2024-05-01T${edge}:00.000Z`);
  }
});

test('a timetable without a departure is OutOfWindow', async () => {
  const error = await failure(ask(new Stub({ versions: [[0, []]], stops: ['A', 'D'], changes: [] })));
  assert.ok(error instanceof OutOfWindow);
  assert.deepEqual([error.side, error.edge], ['after', null]);
});

test('no journey within the window is no error', async () => {
  assert.equal((await ask(tinyStub(), { from: 'A', to: 'F' })).journey, null);
});

test('questions that are none are BadQuestion, and nothing is asked', async () => {
  const cases = [
    { to: 'A' },
    { from: '' },
    { from: 7 },
    { leave: undefined },
    { arrive: date('09:00') },
    { leave: '2024-05-01T08:00:00Z' },
    { leave: new Date(NaN) },
    { leave: new Date(-1000) },
    { horizon: 0 },
    { horizon: 604801 },
    { horizon: 1.5 },
    { known: 7 },
    { base: 'http://lc.example/tiny' },
    { base: 'http://lc.example/?a=b' },
    { base: 'ftp://lc.example/' },
    { base: 'tiny' },
    { ahead: 5 },
    { ahead: -1 },
    { timeout: 0 },
    { cache: {} },
  ];
  const stub = tinyStub();
  for (const more of cases) {
    const error = await failure(ask(stub, more));
    assert.ok(error instanceof BadQuestion, JSON.stringify(more));
  }
  const spans = [{}, { until: date('07:00') }];
  for (const more of spans) {
    assert.ok((await failure(profile({ base: stub.base, fetch: stub.fetch, ...QUESTION, ...more }).next())) instanceof BadQuestion);
  }
  assert.ok((await failure(planMany([], QUESTION))) instanceof BadQuestion);
  for (const near of [{ metres: 100 }, { metres: 0 }, { metres: 100, pace: 0 }]) {
    assert.ok((await failure(planMany([{ base: stub.base }], { ...QUESTION, fetch: stub.fetch, near }))) instanceof BadQuestion);
  }
  assert.deepEqual(stub.requests, []);
});

test('a question that is aborted ends with the reason of its signal, at any point', async () => {
  for (let count = 0; count <= 4; count += 1) {
    const controller = new AbortController();
    const reason = new Error(`enough after ${count}`);
    let left = count;
    const stub = altered((answer) => {
      if (left === 0) controller.abort(reason);
      left -= 1;
      return answer;
    });
    const asked = ask(stub, { signal: controller.signal });
    if (count < 4) assert.equal(await failure(asked), reason);
    else assert.ok((await asked).journey);
  }
});

test('an aborted question ends its requests, and so does one that has failed', async () => {
  const ended = [];
  const waits = (url, { signal }) =>
    new Promise((resolve, reject) => {
      signal.addEventListener('abort', () => {
        ended.push(url.split('?')[0]);
        reject(signal.reason);
      });
    });
  const controller = new AbortController();
  const asked = ask(tinyStub(), { fetch: waits, signal: controller.signal });
  controller.abort();
  assert.equal((await failure(asked)).name, 'AbortError');
  assert.deepEqual(ended.sort(), ['http://lc.example/connections', 'http://lc.example/stops']);
  // The time gate fails, and nobody waits for the stops any more.
  ended.length = 0;
  const fails = async (url, options) => (url.endsWith('stops') ? waits(url, options) : new Response('', { status: 404 }));
  assert.ok((await failure(ask(tinyStub(), { fetch: fails }))) instanceof NotFound);
  assert.deepEqual(ended, ['http://lc.example/stops']);
});

test('a signal that ended before is heard before anything is asked', async () => {
  const stub = tinyStub();
  const error = await failure(ask(stub, { signal: AbortSignal.abort(new Error('no')) }));
  assert.equal(error.message, 'no');
  assert.deepEqual(stub.requests, []);
});

test('a full cache is said, and the question goes on', async () => {
  const full = new Error('quota exceeded');
  const seen = [];
  const cache = { get: async () => undefined, put: async () => Promise.reject(full) };
  const { journey } = await ask(tinyStub(), { cache, progress: ({ notKept }) => notKept && seen.push(notKept) });
  assert.ok(journey);
  assert.ok(seen.length > 0 && seen.every((error) => error instanceof NotKept && error.cause === full));
  assert.match(seen[0].message, /^the page http:.* could not be kept$/);
});

test('a cache that fails, or has something else, is passed over', async () => {
  for (const get of [() => Promise.reject(new Error('broken')), () => 'no page', () => 7, () => '{}']) {
    assert.ok((await ask(tinyStub(), { cache: { get, put: () => {} } })).journey);
  }
});

test('what a progress callback throws ends the question', async () => {
  const thrown = new Error('not like this');
  const progress = () => {
    throw thrown;
  };
  assert.equal(await failure(ask(tinyStub(), { progress })), thrown);
});

test('one publisher of several that fails is named', async () => {
  const good = tinyStub();
  const bad = altered((answer, path) => (path === 'stops' ? { status: 404, headers: {}, body: '' } : answer), { base: 'http://bad.example/' });
  const fetch = (url, options) => (url.startsWith(bad.base) ? bad : good).fetch(url, options);
  const error = await failure(planMany([{ base: good.base }, { base: bad.base }], { ...QUESTION, fetch, cache: null }));
  assert.equal(error.url, 'http://bad.example/stops');
});

test('one publisher of several whose window is over adds nothing', async () => {
  const good = tinyStub();
  const over = tinyStub({ base: 'http://over.example/', versions: [[0, [connection('Z', 1, 'A', at('01:00'), 'D', at('01:10'))]]] });
  const fetch = (url, options) => (url.startsWith(over.base) ? over : good).fetch(url, options);
  const { journey } = await planMany([{ base: good.base }, { base: over.base }], { ...QUESTION, fetch, cache: new PageMap() });
  assert.deepEqual(journey.arrives, date('08:40'));
});
