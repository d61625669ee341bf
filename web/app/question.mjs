// A question, and the address of the page that holds it, so that it can be sent.

/**
 * @typedef {object} Question
 * @property {string|null} from the id of the stop where the journey begins
 * @property {string|null} to where it ends
 * @property {'leave'|'arrive'|'fewest'} mode
 * @property {string|null} date on the calendar of the timetable's zone, as 2024-05-01
 * @property {string|null} time on its clocks, as 08:00
 * @property {Date|null} known plan by what was known then; null means the newest version
 */

const MODES = ['leave', 'arrive', 'fewest'];

/** The question in an address. What is missing or unreadable is null, and the mode `leave`. */
export function questionOf(address) {
  const given = new URL(address).searchParams;
  const moment = /^(\d{4}-\d{2}-\d{2})T(\d{2}:\d{2})$/.exec(given.get('at') ?? '');
  const known = new Date(given.get('known') ?? '');
  return {
    from: given.get('from') || null,
    to: given.get('to') || null,
    mode: MODES.includes(given.get('mode')) ? given.get('mode') : 'leave',
    date: moment?.[1] ?? null,
    time: moment?.[2] ?? null,
    known: Number.isNaN(known.getTime()) ? null : known,
  };
}

/** The address with a question in it. What else the address has stays: the language. */
export function addressOf(question, address) {
  const url = new URL(address);
  const members = {
    from: question.from,
    to: question.to,
    mode: question.mode === 'leave' ? null : question.mode,
    at: question.date && question.time ? `${question.date}T${question.time}` : null,
    known: question.known ? question.known.toISOString().replace('.000', '') : null,
  };
  for (const [name, value] of Object.entries(members)) {
    if (value === null) url.searchParams.delete(name);
    else url.searchParams.set(name, value);
  }
  url.search = url.search.replaceAll('%3A', ':');
  return url.href;
}
