// Moments, ids and URLs as they are written in pages. Each has one spelling, and another one is refused.

const MOMENT = /^\d{4}-\d\d-\d\dT\d\d:\d\d:\d\d(\.\d{3})?Z$/;

/** Seconds since 1970 of the date at the beginning of a moment. A page has few dates, and `Date.parse` takes long. */
const midnights = new Map();

function midnightOf(date) {
  let seconds = midnights.get(date);
  if (seconds === undefined) {
    const day = Date.parse(`${date}T00:00:00Z`);
    // `Date.parse` takes some days that do not exist for the first ones of the next month.
    seconds = Number.isNaN(day) || new Date(day).toISOString().slice(0, 10) !== date ? NaN : day / 1000;
    if (midnights.size >= 1000) midnights.clear();
    midnights.set(date, seconds);
  }
  return seconds;
}

/** The number of two digits at a place of a text. */
function twoDigits(text, at) {
  return 10 * text.charCodeAt(at) + text.charCodeAt(at + 1) - 11 * 48;
}

/** Seconds since 1970 of a moment, as 2024-05-01T08:00:00.000Z. The three digits say nothing, and may be missing. NaN where the text is no moment. */
export function secondsOf(text) {
  if (typeof text !== 'string' || !MOMENT.test(text)) return NaN;
  const hour = twoDigits(text, 11);
  const minute = twoDigits(text, 14);
  const second = twoDigits(text, 17);
  if (hour > 23 || minute > 59 || second > 59) return NaN;
  return midnightOf(text.slice(0, 10)) + 3600 * hour + 60 * minute + second;
}

/** A moment as a URL has it. */
export function momentText(seconds) {
  return new Date(seconds * 1000).toISOString();
}

const PLAIN = /^[A-Za-z0-9\-._~]+$/;

/** An id as it is encoded in names: all but letters, digits, `-`, `.`, `_` and `~` by percent signs. */
export function encodeId(id) {
  return encodeURIComponent(id).replace(/[!'()*]/g, (sign) => `%${sign.charCodeAt(0).toString(16).toUpperCase()}`);
}

/** The id that is encoded so, or null where none is, or in another spelling. */
export function decodeId(text) {
  if (PLAIN.test(text)) return text;
  try {
    const id = decodeURIComponent(text);
    return id !== '' && encodeId(id) === text ? id : null;
  } catch {
    return null;
  }
}

/** A base as the URL Standard writes it, or null where the text is none. In a browser it may be given from the page's own address on. */
export function readBase(text) {
  try {
    const url = new URL(text, globalThis.document?.baseURI ?? globalThis.location?.href);
    const isPlain = url.search === '' && url.hash === '' && url.username === '' && url.password === '';
    return /^https?:$/.test(url.protocol) && isPlain && url.pathname.endsWith('/') ? url.href : null;
  } catch {
    return null;
  }
}

const PAGE = /^memento\/connections\?version=(\d{4}-\d\d-\d\dT\d\d:\d\d:\d\d\.000Z)&departureTime=(\d{4}-\d\d-\d\dT\d\d:\d\d:\d\d\.000Z)$/;

/** What the URL of a page says: the version, and the moment at which the page begins. It is null where the text is no such URL under the base. */
export function readPageUrl(base, text) {
  if (typeof text !== 'string' || !text.startsWith(base)) return null;
  const parts = PAGE.exec(text.slice(base.length));
  if (!parts) return null;
  const [version, departs] = [secondsOf(parts[1]), secondsOf(parts[2])];
  return Number.isNaN(version) || Number.isNaN(departs) ? null : { url: text, version, departs };
}

const RUN = /^([^/]+)\/(\d{8})\/(-|\d{6})$/;

/** The parts of a run's name: trip, service date and start, null for a run without a headway. It is null where the text is none. */
export function readRun(text) {
  const parts = RUN.exec(text);
  const trip = parts && decodeId(parts[1]);
  return trip ? { trip, date: parts[2], start: parts[3] === '-' ? null : parts[3] } : null;
}

/** The place of a code unit in the order of bytes: those of signs above U+FFFF come after all others. */
function rankOf(unit) {
  return unit >= 0xd800 && unit <= 0xdfff ? unit + 0x10000 : unit;
}

/** Compares two ids by the bytes of UTF-8: below 0, 0 or above. */
export function compareIds(one, other) {
  const length = Math.min(one.length, other.length);
  for (let at = 0; at < length; at += 1) {
    const [unit, next] = [one.charCodeAt(at), other.charCodeAt(at)];
    if (unit !== next) return rankOf(unit) - rankOf(next);
  }
  return one.length - other.length;
}
