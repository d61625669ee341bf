// Where documents are kept. A page of a version never changes, so that it can be kept as long as there is room.
import { BadQuestion, NotKept } from './errors.mjs';

const MOST = 250_000; // connections in memory, some 70 MB
const STOPS_AGE = 3_600_000; // Milliseconds: the stops have no version, and may be others once the publisher has another feed.

/** Documents in memory, those that were used last. */
export class PageMap {
  #kept = new Map(); // in the order of use
  #most;
  #weight = 0;

  constructor(most = MOST) {
    this.#most = most;
  }

  get(url) {
    const entry = this.#kept.get(url);
    if (!entry) return undefined;
    this.#kept.delete(url);
    if (entry.until < Date.now()) {
      this.#weight -= entry.weight;
      return undefined;
    }
    this.#kept.set(url, entry);
    return entry.value;
  }

  /** Keeps a document of some weight, a connection weighing 1, and gives up those that were used longest ago. */
  put(url, value, weight, until = Infinity) {
    this.#weight += weight - (this.#kept.get(url)?.weight ?? 0);
    this.#kept.delete(url);
    this.#kept.set(url, { value, weight, until });
    for (const [oldest, entry] of this.#kept) {
      if (this.#weight <= this.#most) break;
      this.#kept.delete(oldest);
      this.#weight -= entry.weight;
    }
  }

  clear() {
    this.#kept.clear();
    this.#weight = 0;
  }
}

/** The Cache Storage of a browser as a store of texts. */
function storeOfReplies(cache) {
  return {
    get: async (url) => (await cache.match(url))?.text(),
    put: (url, text) => cache.put(url, new Response(text, { headers: { 'Content-Type': 'application/ld+json' } })),
  };
}

const shared = new PageMap();
const memories = new WeakMap(); // of a store: the pages of it that are in memory

function has(value, ...names) {
  return typeof value === 'object' && value !== null && names.every((name) => typeof value[name] === 'function');
}

function memoryOf(store) {
  if (!memories.has(store)) memories.set(store, new PageMap());
  return memories.get(store);
}

/** What is kept of documents, by the option `cache`: read ones in memory, and perhaps texts in a store. */
export class Keeper {
  #memory;
  #store;

  constructor(cache = shared) {
    if (cache === null) return;
    if (cache instanceof PageMap) {
      this.#memory = cache;
    } else if (has(cache, 'match', 'put')) {
      this.#memory = memoryOf(cache);
      this.#store = storeOfReplies(cache);
    } else if (has(cache, 'get', 'put')) {
      this.#memory = memoryOf(cache);
      this.#store = cache;
    } else {
      throw new BadQuestion('a cache has to have the functions get and put, or match and put');
    }
  }

  /** The page at a URL, or undefined. `read` makes it of a text. A store that fails has none, and neither has one with another text. */
  async page(url, read) {
    const kept = this.#memory?.get(url);
    if (kept || !this.#store) return kept;
    try {
      const text = await this.#store.get(url);
      if (typeof text !== 'string') return undefined;
      const page = read(text);
      this.#memory.put(url, page, page.connections.length + 1);
      return page;
    } catch {
      return undefined;
    }
  }

  /** Keeps a page. It gives why its text could not be kept, or null. */
  async putPage(url, page, text) {
    this.#memory?.put(url, page, page.connections.length + 1);
    try {
      await this.#store?.put(url, text);
      return null;
    } catch (cause) {
      return new NotKept(`the page ${url} could not be kept`, { url, cause });
    }
  }

  stops(url) {
    return this.#memory?.get(url);
  }

  putStops(url, document) {
    this.#memory?.put(url, document, document.stops.length + document.changes.length, Date.now() + STOPS_AGE);
  }
}
