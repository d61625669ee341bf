// Requests: each ends in time, with the signal, or with the question.
import { Keeper } from './cache.mjs';
import { BadQuestion, PlannerError, Unreachable } from './errors.mjs';

const TIMEOUT = 30_000; // milliseconds
const MOST_AHEAD = 4;

/** What a question does over the network, and what it counts. */
export class Wire {
  #fetch;
  #signal;
  #timeout;
  #progress;
  #open = new Set(); // what ends the requests under way
  pages = 0;
  requests = 0;

  constructor({ signal, cache, fetch, timeout = TIMEOUT, ahead = 0, progress }) {
    if (!(timeout > 0)) throw new BadQuestion('a timeout is a number of milliseconds above 0');
    if (!Number.isInteger(ahead) || ahead < 0 || ahead > MOST_AHEAD) throw new BadQuestion(`ahead is a number from 0 to ${MOST_AHEAD}`);
    this.kept = new Keeper(cache);
    this.ahead = ahead;
    // A browser's `fetch` has to be called as a function of its window.
    this.#fetch = fetch ?? ((...words) => globalThis.fetch(...words));
    this.#signal = signal;
    this.#timeout = timeout;
    this.#progress = progress;
  }

  /** Ends with the reason of the signal, where that has ended the work. */
  check() {
    if (this.#signal?.aborted) throw this.#signal.reason;
  }

  report(state) {
    this.check();
    this.#progress?.({ pages: this.pages, requests: this.requests, reached: null, best: null, ...state });
  }

  /** What `take` makes of the reply to a GET. */
  async get(url, options, take) {
    this.check();
    const controller = new AbortController();
    const end = () => controller.abort();
    const timer = setTimeout(end, this.#timeout);
    this.#signal?.addEventListener('abort', end);
    this.#open.add(end);
    this.requests += 1;
    try {
      return await take(await this.#fetch(url, { redirect: 'manual', ...options, signal: controller.signal }));
    } catch (cause) {
      this.check();
      throw cause instanceof PlannerError ? cause : this.#failure(url, controller.signal.aborted, cause);
    } finally {
      clearTimeout(timer);
      this.#signal?.removeEventListener('abort', end);
      this.#open.delete(end);
    }
  }

  #failure(url, isLate, cause) {
    if (isLate) return new Unreachable(`${url} is not answered within ${this.#timeout} milliseconds`, { url, cause });
    return new Unreachable(`${url} cannot be reached`, { url, cause });
  }

  /** Ends the requests that are still under way: nobody waits for them. */
  close() {
    for (const end of this.#open) end();
  }
}
