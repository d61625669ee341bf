// Where pages are kept on this device: the Cache Storage of the browser, where it has one (it has none under plain http but on localhost).

const NAME = 'monteneem-pages';
const MOST = 300; // pages

/** Gives up the oldest pages above `MOST`. */
async function trim(cache) {
  const kept = await cache.keys();
  await Promise.all(kept.slice(0, Math.max(0, kept.length - MOST)).map((request) => cache.delete(request)));
}

/** The store of pages, or undefined where there is none: then the planner keeps pages in memory. */
export async function openStore() {
  try {
    const cache = await caches.open(NAME);
    await trim(cache);
    return cache;
  } catch {
    return undefined;
  }
}
