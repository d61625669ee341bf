// The form of the page of delays: which line, which way, which day, from when until when. The address holds it.

import { byId } from '../app/dom.mjs';
import { words } from '../app/words.mjs';

const HOURS = 2; // that the form begins with

/** Names in the order of a dictionary, with 2 before 10. */
function byName(one, other) {
  return one.localeCompare(other, words.locale, { numeric: true });
}

function shifted(time, hours) {
  const minutes = Number(time.slice(0, 2)) * 60 + Number(time.slice(3)) + hours * 60;
  const within = Math.max(0, Math.min(24 * 60 - 1, minutes));
  return `${String(Math.floor(within / 60)).padStart(2, '0')}:${String(within % 60).padStart(2, '0')}`;
}

/** What an address says of a line: `{ line, towards, date, begin, end, known }`, with null for what it does not say. */
export function lineOf(address) {
  const given = new URL(address).searchParams;
  const like = (name, form) => (form.test(given.get(name) ?? '') ? given.get(name) : null);
  const known = new Date(given.get('known') ?? '');
  return {
    line: given.get('line'),
    towards: given.get('towards') ?? '',
    date: like('day', /^\d{4}-\d{2}-\d{2}$/),
    begin: like('begin', /^\d{2}:\d{2}$/),
    end: like('end', /^\d{2}:\d{2}$/),
    known: Number.isNaN(known.getTime()) ? null : known,
  };
}

/** The address with such a question in it. */
export function lineAddress({ line, towards, date, begin, end, known }, address) {
  const url = new URL(address);
  const members = { line, towards, day: date, begin, end, known: known?.toISOString().replace('.000', '') };
  for (const [name, value] of Object.entries(members)) {
    if (value) url.searchParams.set(name, value);
    else url.searchParams.delete(name);
  }
  url.search = url.search.replaceAll('%3A', ':').replaceAll('%2F', '/');
  return url.href;
}

/** The lines of a day: `{ key, partner, route, label }` each. The key names the publisher and the route. */
export function linesOf(day) {
  const lines = day.partners.flatMap((partner) =>
    Object.entries(partner.names.routes).map(([route, { short, long }]) => ({
      key: `${partner.name}/${route}`,
      partner,
      route,
      label: [short, long].filter(Boolean).join(' · ') || route,
    })),
  );
  return lines.sort((one, other) => byName(one.label, other.label));
}

/** Where the trips of a line go. */
function headsignsOf({ partner, route }) {
  const trips = Object.values(partner.names.trips).filter((trip) => trip.route === route && trip.headsign);
  return [...new Set(trips.map((trip) => trip.headsign))].sort(byName);
}

export class LineForm {
  #line = byId('line');
  #direction = byId('direction');
  #lines = [];

  constructor() {
    this.#line.addEventListener('change', () => this.#offerDirections(''));
  }

  /** Sets the time before the lines of the day are known. `start` is what an address does not say. */
  setTime({ date, begin, end }, start) {
    byId('date').value = date ?? start.date;
    byId('begin').value = begin ?? shifted(start.time, -HOURS);
    byId('end').value = end ?? shifted(byId('begin').value, HOURS);
  }

  /** Offers the lines of a day. `line` and `towards` are chosen among them, if they are there. */
  offer(day, line, towards) {
    this.#lines = linesOf(day);
    this.#line.replaceChildren(...this.#lines.map(({ key, label }) => new Option(label, key, false, key === line)));
    this.#offerDirections(towards);
    return this.#lines.length;
  }

  #offerDirections(towards) {
    const line = this.line;
    const choices = [['', words.bothWays], ...(line ? headsignsOf(line).map((headsign) => [headsign, headsign]) : [])];
    this.#direction.replaceChildren(...choices.map(([value, label]) => new Option(label, value, false, value === towards)));
  }

  /** The chosen line, or undefined where there is none. */
  get line() {
    return this.#lines.find(({ key }) => key === this.#line.value);
  }

  get question() {
    return { line: this.#line.value, towards: this.#direction.value, date: byId('date').value, begin: byId('begin').value, end: byId('end').value };
  }
}
