// The static documents beside the pages: which windows there are, what things are called, and which versions are kept.

import { stops as stopsAt } from '../planner.mjs';
import { calendarDate, isZone } from './zone.mjs';

/** A document could not be read. `status` is that of its reply, null where there was none. */
export class Unread extends Error {
  constructor(url, status, cause) {
    super(`${url}: ${status ?? 'no reply'}`, { cause });
    this.name = 'Unread';
    this.url = url;
    this.status = status;
  }
}

const WAIT = 20_000; // Milliseconds.

async function read(url, signal) {
  const limit = AbortSignal.timeout(WAIT);
  let reply;
  try {
    reply = await fetch(url, { signal: signal ? AbortSignal.any([signal, limit]) : limit });
  } catch (cause) {
    signal?.throwIfAborted();
    throw new Unread(url, null, cause);
  }
  if (!reply.ok) throw new Unread(url, reply.status);
  return reply;
}

async function readJson(url, signal) {
  const reply = await read(url, signal);
  try {
    return await reply.json();
  } catch (cause) {
    throw new Unread(url, reply.status, cause);
  }
}

/** What `work` gives, or `other` where the document does not exist. */
async function orWhereAbsent(work, other) {
  try {
    return await work;
  } catch (error) {
    if (error instanceof Unread && error.status === 404) return other;
    throw error;
  }
}

/** A window as the pages use it, or null where the entry is none. A zone that the browser does not know is UTC. */
function windowOf(entry, catalog) {
  if (typeof entry?.base !== 'string' || !/^\d{8}$/.test(entry.first) || !(entry.days > 0)) return null;
  return {
    base: new URL(entry.base, catalog).href,
    zone: isZone(entry.zone) ? entry.zone : 'UTC',
    first: calendarDate(entry.first),
    last: calendarDate(entry.first, entry.days - 1),
    lastVersion: entry.lastVersion ? new Date(entry.lastVersion) : null,
  };
}

/**
 * The publishers of a catalog and of those that it names in `parts`, each catalog once: `{ name, windows }`. A catalog that is not there is an
 * error, wherever it stands.
 */
export async function readCatalog(url, signal, seen = new Set()) {
  if (seen.has(url)) return [];
  seen.add(url);
  const catalog = await readJson(url, signal);
  const windows = (catalog?.windows ?? []).map((entry) => windowOf(entry, url)).filter((window) => window !== null);
  const publishers = windows.length > 0 ? [{ name: catalog.name ?? new URL(windows[0].base).pathname, windows }] : [];
  for (const part of catalog?.parts ?? []) publishers.push(...(await readCatalog(new URL(part, url).href, signal, seen)));
  return publishers;
}

/** The window of a publisher for a date: of several that have it the one that begins last; null where none has it. */
export function windowFor(publisher, date) {
  const those = publisher.windows.filter((window) => window.first <= date && date <= window.last);
  return those.sort((one, other) => (one.first < other.first ? -1 : 1)).at(-1) ?? null;
}

/** `names.json` of a window; one without names where there is none. */
export async function readNames(base, signal) {
  const names = await orWhereAbsent(readJson(`${base}names.json`, signal), {});
  return { stops: names.stops ?? {}, routes: names.routes ?? {}, trips: names.trips ?? {} };
}

/**
 * The stops of a window, with what `names` says of them.
 *
 * @param wire `cache` and `signal` of the planner
 */
export async function readStops(base, names, wire) {
  const { stops } = await stopsAt({ base, ...wire, timeout: WAIT });
  return stops.map(({ id, name, parent }) => {
    const { lat, lon, platform } = names.stops[id] ?? {};
    return { id, name, parent, platform, lat, lon };
  });
}

/** The parts of a text of links (RFC 8288): `{ target, attributes }` each. Commas and semicolons in quotes part nothing. */
export function linksOf(text) {
  const links = [];
  for (const [, target, rest] of text.matchAll(/<([^>]*)>((?:\s*;\s*[\w*-]+\s*=\s*(?:"[^"]*"|[^",;\s]+))*)/g)) {
    const attributes = {};
    for (const [, name, quoted, plain] of rest.matchAll(/;\s*([\w*-]+)\s*=\s*(?:"([^"]*)"|([^",;\s]+))/g)) attributes[name.toLowerCase()] = quoted ?? plain;
    links.push({ target, attributes });
  }
  return links;
}

/** The moments of the versions that a time map lists (RFC 7089, section 5), the earliest first. */
export function versionsOf(text) {
  const moments = linksOf(text)
    .filter(({ attributes }) => (attributes.rel ?? '').split(/\s+/).includes('memento'))
    .map(({ attributes }) => Date.parse(attributes.datetime))
    .filter((moment) => !Number.isNaN(moment));
  return [...new Set(moments)].sort((one, other) => one - other).map((moment) => new Date(moment));
}

/** The versions of a window; none where it has no time map. */
export async function readVersions(base, signal) {
  const reply = await orWhereAbsent(read(`${base}timemap`, signal), null);
  return reply ? versionsOf(await reply.text()) : [];
}
