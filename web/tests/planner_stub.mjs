// A publisher for tests, in memory: it shares no code with `lc` nor with the planner, and may be told to answer wrongly.
import http from 'node:http';

const iso = (seconds) => new Date(seconds * 1000).toISOString();

/** A connection of a run on 1 May 2024. Times are seconds since 1970. */
export function connection(trip, sequence, from, departs, to, arrives, more = {}) {
  return { trip, sequence, from, departs, to, arrives, ...more };
}

/** Seconds since 1970 of a time on 1 May 2024 in UTC, as '08:00' or '08:00:30'. */
export function at(time) {
  return Date.parse(`2024-05-01T${time.length === 5 ? `${time}:00` : time}Z`) / 1000;
}

/** The Date of such a time. */
export const date = (time) => new Date(at(time) * 1000);

function byBytes(one, other) {
  return one < other ? -1 : Number(one > other);
}

/**
 * Publishes connections at `base`, cut by spans of so many seconds. `versions` are `[moment, connections]`, the oldest first; `stops` are ids or
 * `{ id, parent }`; `changes` are `[from, to, seconds]`.
 */
export class Stub {
  requests = [];

  constructor({ base = 'http://lc.example/', versions, stops, changes, span = 1800 }) {
    this.base = base;
    this.stops = stops.map((stop) => (typeof stop === 'string' ? { id: stop } : stop)).sort((one, other) => byBytes(one.id, other.id));
    this.changes = [...changes].sort((one, other) => byBytes(one[0], other[0]) || byBytes(one[1], other[1]));
    this.versions = versions.map(([moment, connections]) => [moment, this.#pagesOf(connections, span)]);
  }

  #pagesOf(connections, span) {
    const ordered = [...connections].sort((one, other) => one.departs - other.departs || byBytes(one.trip, other.trip) || one.sequence - other.sequence);
    const pages = [];
    for (const entry of ordered) {
      const cell = Math.floor(entry.departs / span);
      if (pages.at(-1)?.cell !== cell) pages.push({ cell, departs: entry.departs, connections: [] });
      pages.at(-1).connections.push(entry);
    }
    return pages.length > 0 ? pages : [{ departs: 0, connections: [] }];
  }

  #url(version, page) {
    return `${this.base}memento/connections?version=${iso(version)}&departureTime=${iso(page.departs)}`;
  }

  #entry({ trip, sequence, from, departs, to, arrives, boards = true, alights = true, delay, start = '-' }) {
    return {
      '@id': `${this.base}connections/${encodeURIComponent(trip)}/20240501/${start}/${sequence}`,
      '@type': 'Connection',
      arrivalStop: `${this.base}stops/${encodeURIComponent(to)}`,
      arrivalTime: iso(arrives),
      departureStop: `${this.base}stops/${encodeURIComponent(from)}`,
      departureTime: iso(departs),
      ...(delay === undefined ? {} : { departureDelay: delay, arrivalDelay: delay }),
      'gtfs:dropOffType': alights ? 'gtfs:Regular' : 'gtfs:NotAvailable',
      'gtfs:pickupType': boards ? 'gtfs:Regular' : 'gtfs:NotAvailable',
    };
  }

  /** The JSON of a page, as a value that a test may spoil. */
  page(version, place) {
    const pages = this.versions.find(([moment]) => moment === version)[1];
    const value = { '@graph': pages[place].connections.map((entry) => this.#entry(entry)), '@id': this.#url(version, pages[place]) };
    if (pages[place + 1]) value['hydra:next'] = this.#url(version, pages[place + 1]);
    if (pages[place - 1]) value['hydra:previous'] = this.#url(version, pages[place - 1]);
    return value;
  }

  #gate(url, known) {
    const bound = known === undefined ? Infinity : Date.parse(known) / 1000;
    const [version, pages] = this.versions.findLast(([moment]) => moment <= bound) ?? this.versions[0];
    const moment = Date.parse(url.searchParams.get('departureTime')) / 1000;
    const page = pages.findLast(({ departs }) => departs <= moment) ?? pages[0];
    return { status: 302, headers: { Location: this.#url(version, page), Vary: 'accept-datetime' }, body: '' };
  }

  #memento(url) {
    const version = Date.parse(url.searchParams.get('version')) / 1000;
    const pages = this.versions.find(([moment]) => moment === version)?.[1];
    const place = pages?.findIndex((page) => this.#url(version, page) === url.href) ?? -1;
    if (place < 0) return { status: 404, headers: {}, body: '' };
    const headers = { 'Content-Type': 'application/ld+json', 'Memento-Datetime': new Date(version * 1000).toUTCString() };
    return { status: 200, headers, body: JSON.stringify(this.page(version, place)) };
  }

  #stops() {
    const stops = this.stops.map(({ id, parent }) => (parent === undefined ? { id, name: id } : { id, name: id, parent }));
    const changes = this.changes.map(([from, to, seconds]) => ({ from, seconds, to }));
    return { status: 200, headers: { 'Content-Type': 'application/json' }, body: JSON.stringify({ changes, stops }) };
  }

  /** What is answered to a GET: `{ status, headers, body }`. A test replaces it to answer wrongly. */
  answer(target, known) {
    const url = new URL(target);
    if (!target.startsWith(this.base)) return { status: 404, headers: {}, body: '' };
    const path = url.pathname.slice(new URL(this.base).pathname.length);
    if (path === 'connections') return this.#gate(url, known);
    if (path === 'memento/connections') return this.#memento(url);
    if (path === 'stops') return this.#stops();
    return { status: 404, headers: {}, body: '' };
  }

  /** A `fetch` that asks this publisher, and shows redirects as node does. */
  get fetch() {
    return async (url, { headers = {}, signal } = {}) => {
      signal?.throwIfAborted();
      this.requests.push(url);
      const { status, headers: fields, body } = await this.answer(url, headers['Accept-Datetime']);
      signal?.throwIfAborted();
      return new Response(status === 302 ? null : body, { status, headers: fields });
    };
  }

  /** Answers over HTTP on a free port, under a base there, until `stop` is called. */
  async listen() {
    const server = http.createServer(async (request, reply) => {
      const target = new URL(request.url, this.base).href;
      this.requests.push(target);
      const { status, headers, body } = await this.answer(target, request.headers['accept-datetime']);
      reply.writeHead(status, headers).end(body);
    });
    await new Promise((resolve) => server.listen(0, '127.0.0.1', resolve));
    this.base = `http://127.0.0.1:${server.address().port}/`;
    const stop = () => {
      server.closeAllConnections();
      return new Promise((resolve) => server.close(resolve));
    };
    return { base: this.base, stop };
  }
}

/** The feed examples/tiny of the repository as this publisher would have it, in its two versions: before examples/late.pb and after it. */
export function tinyStub(options = {}) {
  const changes = ['A', 'B', 'C', 'D', 'E', 'F'].map((stop) => [stop, stop, 120]);
  const before = [
    connection('T1', 1, 'A', at('08:00'), 'B', at('08:10')),
    connection('T3', 1, 'B', at('08:12'), 'D', at('08:31')),
    connection('T2', 1, 'B', at('08:20'), 'D', at('08:40')),
    connection('T4', 1, 'E', at('09:00'), 'F', at('09:10')),
  ];
  const after = before.map((entry) => (entry.trip === 'T1' ? { ...entry, arrives: at('08:11'), delay: 60 } : entry));
  const versions = [
    [0, before],
    [at('07:00'), after],
  ];
  return new Stub({ versions, stops: ['A', 'B', 'C', 'D', 'E', 'F'], changes, ...options });
}
