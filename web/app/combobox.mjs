// A text field with a list of stops below it, by the combobox pattern of the ARIA Authoring Practices: the focus stays in the field, and the arrow
// keys go through the list.

import { byId, element, spoken } from './dom.mjs';
import { words } from './words.mjs';

const MOST = 8; // stops in the list

/** A field in which one types the name of a stop. */
export class StopField {
  #input;
  #list;
  #fault;
  #said;
  #stops = null;
  #found = [];
  #active = -1;
  /** The id of the chosen stop, or null. */
  chosen = null;

  /** @param changed is called when another stop is chosen, or none */
  constructor(id, changed) {
    this.#input = byId(id);
    this.#list = byId(`${id}-list`);
    this.#fault = byId(`${id}-fault`);
    this.#said = spoken('');
    this.#said.setAttribute('aria-live', 'polite');
    this.#input.after(this.#said);
    this.changed = changed;
    this.#input.addEventListener('input', () => this.#typed());
    this.#input.addEventListener('keydown', (event) => this.#pressed(event));
    this.#input.addEventListener('focus', () => this.#input.select());
    this.#input.addEventListener('blur', () => this.#left());
    // The field would lose the focus before a click on a stop counts.
    this.#list.addEventListener('mousedown', (event) => event.preventDefault());
    this.#list.addEventListener('click', (event) => {
      const option = event.target.closest('[role=option]');
      if (option) this.#choose(this.#found[Number(option.dataset.place)]);
    });
  }

  /** Offers these stops. A stop that was chosen stays so, even if it is none of these. */
  offer(stops) {
    this.#stops = stops;
    if (this.chosen !== null) this.#input.value = stops.nameOf(this.chosen);
  }

  /** Chooses a stop by its id, or none with null. */
  set(id) {
    this.chosen = id;
    this.#input.value = id === null ? '' : (this.#stops?.nameOf(id) ?? id);
    this.complain('');
    this.#close();
  }

  get typed() {
    return this.#input.value.trim();
  }

  focus() {
    this.#input.focus();
  }

  /** Says below the field what is wrong with it; nothing with an empty text. */
  complain(text) {
    this.#fault.textContent = text;
    if (text) this.#input.setAttribute('aria-invalid', 'true');
    else this.#input.removeAttribute('aria-invalid');
  }

  #typed() {
    this.chosen = null;
    this.complain('');
    this.#show(this.typed === '' ? [] : (this.#stops?.find(this.typed, MOST) ?? []));
    this.#said.textContent = this.typed === '' ? '' : words.found(this.#found.length);
  }

  #pressed(event) {
    const isOpen = !this.#list.hidden;
    if (event.key === 'ArrowDown' || event.key === 'ArrowUp') {
      if (!isOpen) this.#typedAgain();
      this.#mark(this.#active + (event.key === 'ArrowDown' ? 1 : -1));
    } else if (event.key === 'Enter' && isOpen) {
      this.#choose(this.#found[Math.max(0, this.#active)]);
    } else if (event.key === 'Escape') {
      if (isOpen) this.#close();
      else this.set(null);
    } else {
      return;
    }
    event.preventDefault();
  }

  #typedAgain() {
    this.#show(this.typed === '' ? [] : (this.#stops?.find(this.typed, MOST) ?? []));
  }

  /** Leaving the field takes the marked stop, or the one whose whole name was typed. */
  #left() {
    const marked = this.#list.hidden ? undefined : this.#found[this.#active];
    const stop = this.chosen === null ? (marked ?? this.#stops?.exact(this.typed)) : undefined;
    if (stop) this.#choose(stop);
    this.#close();
  }

  #show(found) {
    this.#found = found;
    this.#active = -1;
    this.#input.removeAttribute('aria-activedescendant');
    this.#list.replaceChildren(...found.map((stop, place) => this.#option(stop, place)));
    this.#list.hidden = found.length === 0;
    this.#input.setAttribute('aria-expanded', String(found.length > 0));
  }

  #option(stop, place) {
    const more = stop.platform ? words.platform(stop.platform) : stop.note;
    return element(
      'li',
      { role: 'option', id: `${this.#list.id}-${place}`, 'data-place': place, 'aria-selected': 'false' },
      element('span', { class: 'choice-name' }, this.#stops.nameOf(stop.id)),
      more && element('span', { class: 'note' }, more),
    );
  }

  #mark(place) {
    if (this.#found.length === 0) return;
    this.#list.children[this.#active]?.setAttribute('aria-selected', 'false');
    this.#active = (place + this.#found.length) % this.#found.length;
    const option = this.#list.children[this.#active];
    option.setAttribute('aria-selected', 'true');
    option.scrollIntoView({ block: 'nearest' });
    this.#input.setAttribute('aria-activedescendant', option.id);
  }

  #choose(stop) {
    this.set(stop.id);
    this.#said.textContent = this.#stops.nameOf(stop.id);
    this.changed();
  }

  #close() {
    this.#show([]);
  }
}
