// What was known of a line at each version: a frame each, which is read when it is looked at.

import { pages } from '../planner.mjs';
import { words } from '../app/words.mjs';
import { RunList } from './runs.mjs';

const AHEAD = 4; // pages on their way at once

export class Frames {
  #question;
  #cache;
  #kept = new Map(); // version in milliseconds: its frame

  /**
   * @param question `{ base, names, route, since, until, placeOf }`: the line, and between which moments of departure
   * @param cache where the planner keeps pages
   */
  constructor(question, cache) {
    this.#question = question;
    this.#cache = cache;
  }

  /** The frames that were read, by their versions. */
  get read() {
    return [...this.#kept.values()].sort((one, other) => one.version - other.version);
  }

  /** All runs that any frame has, as the first one has them: the timetable is the same in each. */
  get timetable() {
    const runs = new Map();
    for (const frame of this.read) for (const run of frame.runs) if (!runs.has(run.run)) runs.set(run.run, run);
    return [...runs.values()];
  }

  /** The frame of a version: `{ version, runs }`. `say` is called with a text that says how far reading is. */
  async at(version, signal, say) {
    const key = version.getTime();
    if (!this.#kept.has(key)) this.#kept.set(key, await this.#readFrame(version, signal, say));
    return this.#kept.get(key);
  }

  async #readFrame(known, signal, say) {
    const { base, names, route, since, until, placeOf } = this.#question;
    const wire = { cache: this.#cache, ahead: AHEAD, signal, progress: (state) => say(words.readingPages(state.pages)) };
    const list = new RunList(placeOf, (trip) => names.trips[trip]?.headsign ?? '');
    for await (const page of pages({ base, names, known, since, until, ...wire })) {
      for (const connection of page.connections) if (connection.route === route) list.take(connection);
    }
    return { version: known, runs: list.runs };
  }
}
