// The list of journeys that a question has: the first ones, and those before and after them.

import { profileMany } from '../planner.mjs';

const DAY = 86_400_000; // Milliseconds.
const SECOND = 1000;
const FIRST = 4; // How many journeys a list begins with,
const MORE = 3; // and how many more one asks for.
const AHEAD = 2; // pages on their way before they are needed
const WAIT = 20_000; // Milliseconds that one document may take.

/** One question over the publishers of a day, and the journeys found so far in the order in which they leave. */
export class Search {
  #day;
  #question;
  #cache;

  /**
   * @param day a `Day`
   * @param question `{ from, to, mode, moment, known }`, with `moment` a Date
   * @param cache where the planner keeps pages
   */
  constructor(day, question, cache) {
    this.#day = day;
    this.#question = question;
    this.#cache = cache;
    /** Journeys, the first to leave first. */
    this.journeys = [];
    /** The newest version that they are of; null before the first. */
    this.version = null;
  }

  /**
   * Finds the first journeys.
   *
   * @param wire `signal` and `progress` of the planner
   * @param found is called after each journey
   */
  begin(wire, found) {
    const { mode, moment } = this.#question;
    return this.#extend(mode === 'arrive' ? { arrive: moment } : { leave: moment }, FIRST, wire, found);
  }

  /** Finds journeys that leave after the last one. It gives how many. */
  later(wire, found) {
    const last = this.journeys.at(-1);
    return this.#extend({ leave: new Date(last.departs.getTime() + SECOND) }, MORE, wire, found);
  }

  /** Finds journeys that arrive before the first one. It gives how many. */
  earlier(wire, found) {
    const first = this.journeys[0];
    return this.#extend({ arrive: new Date(first.arrives.getTime() - SECOND) }, MORE, wire, found);
  }

  async #extend(moment, most, wire, found) {
    let count = 0;
    for await (const { versions, journey } of this.#best(moment, wire)) {
      // All journeys of a list are of one version, whatever messages come meanwhile.
      this.version ??= new Date(Math.max(...versions));
      if (moment.leave) this.journeys.push(journey);
      else this.journeys.unshift(journey);
      count += 1;
      found();
      if (count === most) break;
    }
    return count;
  }

  /** Best journeys one after the other within a day: with `leave` later and later ones, with `arrive` earlier and earlier ones. */
  #best(moment, wire) {
    const { from, to, mode, known } = this.#question;
    const partners = this.#day.partners.map(({ base, names }) => ({ base, names }));
    const until = new Date(moment.leave ? moment.leave.getTime() + DAY : moment.arrive.getTime() - DAY);
    const question = { from, to, ...moment, until, known: this.version ?? known ?? undefined, fewest: mode === 'fewest', near: this.#day.near };
    return profileMany(partners, { ...question, ...wire, cache: this.#cache, ahead: AHEAD, timeout: WAIT });
  }
}
