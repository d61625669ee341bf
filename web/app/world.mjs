// What a page knows of its publishers on a day: which windows hold, what things are called, which versions are kept.

import { readNames, readStops, readVersions, windowFor } from './documents.mjs';
import { StopList } from './stops.mjs';
import { wallOf } from './zone.mjs';

const NEAR = 300; // Metres: one can go on foot between stops of two publishers that are so near.
const METRES = 111_320; // of a degree of latitude

/** No publisher has a window for a day. `first` and `last` are those that they have. */
export class OutsideWindows extends Error {
  constructor(first, last) {
    super(`from ${first} to ${last}`);
    this.name = 'OutsideWindows';
    this.first = first;
    this.last = last;
  }
}

/** The first and the last day of all windows. */
export function daysOf(publishers) {
  const windows = publishers.flatMap((publisher) => publisher.windows);
  return {
    first: windows.map((window) => window.first).sort().at(0) ?? null,
    last: windows.map((window) => window.last).sort().at(-1) ?? null,
  };
}

/** The zone of the publisher that comes first. */
export function zoneOf(publishers) {
  return publishers[0]?.windows.at(-1)?.zone ?? 'UTC';
}

/** Metres between two stops with coordinates, on a sphere as if it were flat. NaN where one has none. */
export function metresBetween(one, other) {
  const north = (other.lat - one.lat) * METRES;
  const east = (other.lon - one.lon) * METRES * Math.cos((one.lat * Math.PI) / 180);
  return Math.hypot(north, east);
}

/**
 * The stops of all publishers, each id once. Where two publishers have a stop of one name and near each other, the first one stands for both: the
 * planner walks from one to the other.
 */
function joinedStops(lists) {
  const joined = new Map();
  const named = new Map();
  lists.forEach((stops, place) => {
    for (const stop of stops) {
      if (joined.has(stop.id)) continue;
      const twin = (named.get(stop.name) ?? []).find((other) => other.place < place && metresBetween(other.stop, stop) <= NEAR);
      joined.set(stop.id, twin ? { ...stop, parent: stop.parent ?? twin.stop.id } : stop);
      if (stop.name !== '' && stop.parent === undefined) named.set(stop.name, [...(named.get(stop.name) ?? []), { stop, place }]);
    }
  });
  return new StopList([...joined.values()]);
}

/** One publisher on a day, as the planner asks it. */
async function partnerAt({ name, window }, cache, signal) {
  const names = await readNames(window.base, signal);
  const [stops, versions] = await Promise.all([readStops(window.base, names, { cache, signal }), readVersions(window.base, signal)]);
  return { name, base: window.base, names, stops, versions };
}

/** The publishers on a day. */
export class Day {
  constructor(partners, zone) {
    this.partners = partners;
    this.zone = zone;
    this.stops = joinedStops(partners.map((partner) => partner.stops));
    this.names = new Map(partners.map((partner) => [partner.base, partner.names]));
    const moments = partners.flatMap((partner) => partner.versions).map(Number);
    /** The moments at which any of them had a version, the earliest first. */
    this.versions = [...new Set(moments)].sort((one, other) => one - other).map((moment) => new Date(moment));
  }

  /** Which stops of several publishers are one, for the planner. */
  get near() {
    return this.partners.length > 1 ? { metres: NEAR } : undefined;
  }
}

/** Reads what is known of days, each set of windows once. */
export class World {
  #days = new Map();
  #cache;

  /** @param cache where the planner keeps documents */
  constructor(publishers, cache) {
    this.publishers = publishers;
    this.#cache = cache;
    this.zone = zoneOf(publishers);
  }

  /** What is known of a day, as 2024-05-01. It rejects with `OutsideWindows` where no publisher has the day. */
  async at(date, signal) {
    const those = this.publishers.map((publisher) => ({ name: publisher.name, window: windowFor(publisher, date) })).filter(({ window }) => window !== null);
    if (those.length === 0) {
      const { first, last } = daysOf(this.publishers);
      throw new OutsideWindows(first, last);
    }
    const key = those.map(({ window }) => window.base).join(' ');
    if (!this.#days.has(key)) this.#days.set(key, new Day(await Promise.all(those.map((one) => partnerAt(one, this.#cache, signal))), this.zone));
    return this.#days.get(key);
  }
}

/** The date and time that a form begins with: those of now if the timetable has them, else those of its last version, else its first morning. */
export function firstMoment(world) {
  const { first, last } = daysOf(world.publishers);
  const versions = world.publishers.flatMap((publisher) => publisher.windows.map((window) => window.lastVersion ?? 0));
  for (const moment of [Date.now(), Math.max(...versions)]) {
    const { date, time } = wallOf(moment, world.zone);
    if (first <= date && date <= last) return { date, time };
  }
  return { date: first, time: '08:00' };
}
