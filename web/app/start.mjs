// How both pages begin: the language, the catalog, the store of pages.

import { showFault } from './alert.mjs';
import { readCatalog, Unread } from './documents.mjs';
import { byId } from './dom.mjs';
import { explained } from './faults.mjs';
import { openStore } from './store.mjs';
import { chosenLanguage, offerLanguages, speak, words } from './words.mjs';
import { World } from './world.mjs';

/** The publishers of the catalog that the page links to. */
async function publishers() {
  const { href } = document.querySelector('link[rel=catalog]');
  try {
    const found = await readCatalog(href);
    if (found.length === 0) throw new Unread(href, 200);
    return found;
  } catch (error) {
    if (error instanceof Unread) error.isCatalog = true;
    throw error;
  }
}

function useLanguage(code) {
  const url = new URL(location.href);
  url.searchParams.set('lang', code);
  location.assign(url);
}

/**
 * Begins a page: `open` gets what is known of the publishers, and where pages are kept.
 *
 * @param title the key of the page's title
 */
export async function start(title, open) {
  speak(chosenLanguage(new URL(location.href).searchParams.get('lang')));
  offerLanguages(byId('language'), useLanguage);
  document.title = words[title];
  try {
    const [found, store] = await Promise.all([publishers(), openStore()]);
    await open(new World(found, store), store);
  } catch (error) {
    showFault(explained(error), { again: () => location.reload() });
  }
}
