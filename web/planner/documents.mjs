// Reads the two documents of a publisher, pages and stops, as docs/PROTOCOL.md has them. What it does not name is passed over.
import { NotAPage } from './errors.mjs';
import { compareIds, decodeId, readPageUrl, readRun, secondsOf } from './texts.mjs';

function refuse(url, test, why) {
  throw new NotAPage(`${url} is wrong: ${why}`, { url, test });
}

function parse(text, url) {
  try {
    return JSON.parse(text);
  } catch (cause) {
    throw new NotAPage(`${url} is no JSON`, { url, test: 'body', cause });
  }
}

function isObject(value) {
  return typeof value === 'object' && value !== null && !Array.isArray(value);
}

/** Reads the connections of one page. Few stops and runs have many connections, so each name is read once. */
class ConnectionReader {
  #url;
  #front;
  #stopFront;
  #stops = new Map();
  #runs = new Map();

  constructor(base, url) {
    this.#url = url;
    this.base = base;
    this.#front = `${base}connections/`;
    this.#stopFront = `${base}stops/`;
  }

  #refuse(why) {
    refuse(this.#url, 'body', why);
  }

  #stop(name) {
    let id = this.#stops.get(name);
    if (id === undefined) {
      const isName = typeof name === 'string' && name.startsWith(this.#stopFront);
      id = isName ? decodeId(name.slice(this.#stopFront.length)) : null;
      if (id === null) this.#refuse(`${JSON.stringify(name)} is no name of a stop`);
      this.#stops.set(name, id);
    }
    return id;
  }

  /** The run whose name the text is. Equal runs give one text. */
  #run(text) {
    let run = this.#runs.get(text);
    if (run === undefined) {
      run = text;
      if (!readRun(text.slice(this.#front.length))) this.#refuse(`${text} is no name of a run`);
      this.#runs.set(text, run);
    }
    return run;
  }

  #moment(text) {
    const seconds = secondsOf(text);
    if (Number.isNaN(seconds)) this.#refuse(`${JSON.stringify(text)} is no moment`);
    return seconds;
  }

  #delay(value) {
    if (value === undefined) return 0;
    if (!Number.isSafeInteger(value)) this.#refuse(`${JSON.stringify(value)} is no delay`);
    return value;
  }

  #isAllowed(value) {
    if (value !== undefined && typeof value !== 'string') this.#refuse(`${JSON.stringify(value)} does not say whether one may board or alight`);
    return value !== 'gtfs:NotAvailable';
  }

  read(entry) {
    const name = isObject(entry) ? entry['@id'] : undefined;
    if (typeof name !== 'string' || !name.startsWith(this.#front)) this.#refuse(`${JSON.stringify(name)} is no name of a connection`);
    const cut = name.lastIndexOf('/');
    const sequence = name.slice(cut + 1);
    if (!/^(0|[1-9]\d{0,9})$/.test(sequence)) this.#refuse(`${name} has no sequence`);
    const connection = {
      base: this.base,
      run: this.#run(name.slice(0, cut)),
      sequence: Number(sequence),
      from: this.#stop(entry.departureStop),
      to: this.#stop(entry.arrivalStop),
      departs: this.#moment(entry.departureTime),
      arrives: this.#moment(entry.arrivalTime),
      boards: this.#isAllowed(entry['gtfs:pickupType']),
      alights: this.#isAllowed(entry['gtfs:dropOffType']),
      departureDelay: this.#delay(entry.departureDelay),
      arrivalDelay: this.#delay(entry.arrivalDelay),
    };
    if (connection.arrives < connection.departs) this.#refuse(`${name} arrives before it departs`);
    return connection;
  }
}

/** What of a connection's name is behind the base: the run, without the sequence. */
export function runOf(connection) {
  return connection.run.slice(connection.base.length + 'connections/'.length);
}

/** Whether the connections may follow one another: by departures, and in one second by trip, service date, start and sequence. */
function areInOrder(one, next) {
  if (one.departs !== next.departs) return one.departs < next.departs;
  if (one.run === next.run) return one.sequence < next.sequence;
  const [first, second] = [readRun(runOf(one)), readRun(runOf(next))];
  const byTrip = compareIds(first.trip, second.trip);
  if (byTrip !== 0) return byTrip < 0;
  if (first.date !== second.date) return first.date < second.date;
  return (first.start ?? '') < (second.start ?? '');
}

function readConnections(base, url, graph) {
  if (!Array.isArray(graph)) refuse(url, 'body', 'it has no list of connections');
  const reader = new ConnectionReader(base, url);
  const connections = graph.map((entry) => reader.read(entry));
  for (let at = 1; at < connections.length; at += 1) {
    if (!areInOrder(connections[at - 1], connections[at])) refuse(url, 'body', 'its connections are out of order');
  }
  return connections;
}

/** The page of the same version to which a member leads, or null where the member is missing. */
function readLink(base, url, version, link) {
  if (link === undefined) return null;
  const name = readPageUrl(base, link);
  if (!name || name.version !== version) refuse(url, 'body', `${JSON.stringify(link)} is no page of its version`);
  return name;
}

/**
 * The page that was asked for by a name, as `readPageUrl` gives one: its connections in order, and the names of the pages after it and before it.
 * `memento` is the reply's Memento-Datetime. A missing one is passed over: a browser hides it where the publisher does not expose it.
 */
export function readPage(base, name, text, memento = null) {
  const { url, version, departs } = name;
  const value = parse(text, url);
  if (!isObject(value)) refuse(url, 'body', 'it is no object');
  const connections = readConnections(base, url, value['@graph']);
  const next = readLink(base, url, version, value['hydra:next']);
  const previous = readLink(base, url, version, value['hydra:previous']);
  if (value['@id'] !== url) refuse(url, 'identity', `it says that it is ${JSON.stringify(value['@id'])}`);
  if (memento !== null && Date.parse(memento) !== version * 1000) refuse(url, 'identity', `it is sent as a memento of ${memento}`);
  const last = connections.at(-1)?.departs ?? -Infinity;
  if (connections.length > 0 && connections[0].departs !== departs) refuse(url, 'advance', 'its first connection departs at another moment than it says');
  if (next && (connections.length === 0 || next.departs <= last)) refuse(url, 'advance', 'its next page does not go on');
  return { url, version, departs, last, next, previous, connections };
}

function areRising(list, compare) {
  return list.every((entry, at) => at === 0 || compare(list[at - 1], entry) < 0);
}

function readStop(url, entry) {
  const { id, name = '', parent } = isObject(entry) ? entry : {};
  const isStop = typeof id === 'string' && id !== '' && typeof name === 'string' && (parent === undefined || typeof parent === 'string');
  if (!isStop) refuse(url, 'body', `${JSON.stringify(entry)} is no stop`);
  return { id, name, parent };
}

function readChange(url, entry) {
  const { from, to, seconds } = isObject(entry) ? entry : {};
  const isChange = typeof from === 'string' && typeof to === 'string' && Number.isSafeInteger(seconds) && seconds >= 1;
  if (!isChange) refuse(url, 'body', `${JSON.stringify(entry)} is no change`);
  return { from, to, seconds };
}

/** The stops document of a base: `stops` with id, name and parent, and `changes` with from, to and seconds. */
export function readStops(url, text) {
  const value = parse(text, url);
  if (!isObject(value) || !Array.isArray(value.stops) || !Array.isArray(value.changes)) refuse(url, 'body', 'it has no stops and changes');
  const stops = value.stops.map((entry) => readStop(url, entry));
  const changes = value.changes.map((entry) => readChange(url, entry));
  const known = new Set(stops.map((stop) => stop.id));
  const isKnown = (id) => known.has(id);
  if (!areRising(stops, (one, next) => compareIds(one.id, next.id))) refuse(url, 'body', 'its stops are out of order');
  const compareChanges = (one, next) => compareIds(one.from, next.from) || compareIds(one.to, next.to);
  if (!areRising(changes, compareChanges)) refuse(url, 'body', 'its changes are out of order');
  if (!stops.every(({ parent }) => parent === undefined || isKnown(parent))) refuse(url, 'body', 'a parent is not listed');
  if (!changes.every(({ from, to }) => isKnown(from) && isKnown(to))) refuse(url, 'body', 'a change is between stops that are not listed');
  return { stops, changes };
}
