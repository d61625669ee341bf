// The journeys in the page: one of them is open, and on the map.

import { byId } from './dom.mjs';
import { journeyItem } from './journeys.mjs';

export class JourneyList {
  #list = byId('list');
  #day = null;
  #items = new Map(); // journey: its entry
  #count = 0;
  /** The open journey, or null. */
  open = null;

  /** @param opened is called with the journey that is open, or null */
  constructor(opened) {
    this.opened = opened;
  }

  clear() {
    this.#items.clear();
    this.#list.replaceChildren();
    this.open = null;
  }

  get length() {
    return this.#items.size;
  }

  /** Shows these journeys in their order. Entries that are there stay as they are. */
  show(day, journeys) {
    this.#day = day;
    journeys.forEach((journey, place) => {
      if (!this.#items.has(journey)) this.#items.set(journey, this.#item(journey));
      const item = this.#items.get(journey);
      if (this.#list.children[place] !== item) this.#list.insertBefore(item, this.#list.children[place] ?? null);
    });
  }

  #item(journey) {
    this.#count += 1;
    return journeyItem(this.#day, journey, { id: `journey-${this.#count}`, isOpen: false, chosen: (isOpen) => this.choose(isOpen ? journey : null) });
  }

  /** Opens a journey and closes the others; null closes all. */
  choose(journey) {
    for (const [other, item] of this.#items) {
      const isOpen = other === journey;
      item.classList.toggle('open', isOpen);
      item.querySelector('.summary').setAttribute('aria-expanded', String(isOpen));
      item.querySelector('.body').hidden = !isOpen;
    }
    this.open = journey;
    this.opened(journey);
  }
}
