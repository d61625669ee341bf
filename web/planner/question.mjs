// A question as its asker writes it, and as a search needs it: in seconds, with its defaults, or refused.
import { BadQuestion } from './errors.mjs';
import { readBase } from './texts.mjs';

const DAY = 86_400;
const WEEK = 604_800;
const LAST = 253_370_764_800; // 9999-01-01T00:00:00Z, after which a moment has no room for a horizon.

/** Seconds since 1970 of a Date, rounded as `round` says. */
function secondsOf(date, name, round) {
  const seconds = date instanceof Date ? round(date.getTime() / 1000) : NaN;
  if (!(seconds >= 0 && seconds <= LAST)) throw new BadQuestion(`${name} has to be a Date between 1970 and 9998`);
  return seconds;
}

function stopOf(id, name) {
  if (typeof id !== 'string' || id === '') throw new BadQuestion(`${name} has to be the id of a stop`);
  return id;
}

/** What the question is: the stops, whether it is asked from the end, the moment, and between which moments the journey is. */
export function readQuestion({ from, to, leave, arrive, horizon = DAY, fewest = false, until }) {
  const ends = { from: stopOf(from, 'from'), to: stopOf(to, 'to') };
  if (from === to) throw new BadQuestion('a journey does not begin and end at one stop');
  if ((leave === undefined) === (arrive === undefined)) throw new BadQuestion('a question has either leave or arrive');
  if (!Number.isInteger(horizon) || horizon < 1 || horizon > WEEK) throw new BadQuestion(`a horizon is a number of seconds from 1 to ${WEEK}`);
  const isBack = arrive !== undefined;
  // Whoever leaves a fraction of a second later leaves at the next second, and whoever has to be there has to at the one before.
  const moment = isBack ? secondsOf(arrive, 'arrive', Math.floor) : secondsOf(leave, 'leave', Math.ceil);
  return { ends, isBack, moment, horizon, fewest, until: until === undefined ? null : readUntil(until, isBack, moment) };
}

/** The other end of a profile's span, in seconds. */
function readUntil(until, isBack, moment) {
  const seconds = secondsOf(until, 'until', isBack ? Math.ceil : Math.floor);
  if (isBack ? seconds > moment : seconds < moment) throw new BadQuestion(isBack ? 'until has to be before arrive' : 'until has to be after leave');
  return seconds;
}

/** The two moments of a span, in seconds. */
export function readSpan({ since, until }) {
  return { since: secondsOf(since, 'since', Math.ceil), until: secondsOf(until, 'until', Math.floor) };
}

/** What of a publisher is asked for: its base, and what is known, in seconds, or undefined. */
export function readPartner({ base, known, stop, names }) {
  const read = readBase(base);
  if (read === null) throw new BadQuestion(`${JSON.stringify(base)} is no base: a URL of http or https that ends with a slash`);
  if (stop !== undefined && typeof stop !== 'function') throw new BadQuestion('stop has to be a function of an id');
  return { base: read, known: known === undefined ? undefined : secondsOf(known, 'known', Math.floor), stop, names };
}
