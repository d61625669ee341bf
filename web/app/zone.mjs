// Moments on the clocks of a zone. A zone is a name of the tz database, as Europe/Brussels.

const MINUTE = 60_000;
const made = new Map();

/** A formatter, made once. */
function formatter(language, options) {
  const key = language + JSON.stringify(options);
  if (!made.has(key)) made.set(key, new Intl.DateTimeFormat(language, options));
  return made.get(key);
}

const WALL = { year: 'numeric', month: '2-digit', day: '2-digit', hour: '2-digit', minute: '2-digit', second: '2-digit', hourCycle: 'h23' };

/** Whether the browser knows a zone. */
export function isZone(zone) {
  try {
    formatter('en', { timeZone: zone });
    return true;
  } catch {
    return false;
  }
}

/** What clocks and calendars of the zone show: a date as 2024-05-01, and a time as 08:00. */
export function wallOf(moment, zone) {
  const parts = {};
  for (const { type, value } of formatter('en', { ...WALL, timeZone: zone }).formatToParts(moment)) parts[type] = value;
  return { date: `${parts.year}-${parts.month}-${parts.day}`, time: `${parts.hour}:${parts.minute}`, second: parts.second };
}

/** What the zone's clocks are ahead of UTC at a moment, in milliseconds. */
function ahead(moment, zone) {
  const { date, time, second } = wallOf(moment, zone);
  return Date.parse(`${date}T${time}:${second}Z`) - Math.floor(moment / 1000) * 1000;
}

/**
 * The moment at which the zone's clocks show a date and a time. Of two such moments it is the first. A time that the clocks leave out in spring
 * counts as if they had not been put forward.
 */
export function momentOf(date, time, zone) {
  const asUtc = Date.parse(`${date}T${time}:00Z`);
  if (Number.isNaN(asUtc)) return null;
  const before = ahead(asUtc - 24 * 60 * MINUTE, zone);
  const after = ahead(asUtc + 24 * 60 * MINUTE, zone);
  for (const offset of [Math.max(before, after), Math.min(before, after)]) {
    if (ahead(asUtc - offset, zone) === offset) return new Date(asUtc - offset);
  }
  return new Date(asUtc - before);
}

/** Hours and minutes, as 08:00. */
export function clock(moment, zone) {
  return wallOf(moment, zone).time;
}

/** Hours, minutes and seconds. */
export function clockWithSeconds(moment, zone) {
  const { time, second } = wallOf(moment, zone);
  return `${time}:${second}`;
}

/** A day in words, as Wednesday 1 May 2024. */
export function dayInWords(moment, zone, language) {
  return formatter(language, { weekday: 'long', day: 'numeric', month: 'long', year: 'numeric', timeZone: zone }).format(moment);
}

/** A date that is written 20240501, some days on, as 2024-05-02. */
export function calendarDate(text, days = 0) {
  const noon = Date.parse(`${text.slice(0, 4)}-${text.slice(4, 6)}-${text.slice(6, 8)}T12:00:00Z`);
  return new Date(noon + days * 24 * 60 * MINUTE).toISOString().slice(0, 10);
}

/** How many minutes the clock of one moment is after that of another, as a reader of both counts them. */
export function minutesBetween(from, to) {
  return Math.floor(to / MINUTE) - Math.floor(from / MINUTE);
}
