// The place of a page where it says what went wrong.

import { byId, element } from './dom.mjs';
import { words } from './words.mjs';

/**
 * Shows what is wrong and what to do, or nothing with null.
 *
 * @param fault as `explained` gives it
 * @param helps what each button does, by its name
 */
export function showFault(fault, helps = {}) {
  const place = byId('fault');
  place.hidden = fault === null;
  if (fault === null) return place.replaceChildren();
  const parts = [element('p', {}, element('strong', {}, fault.title), ` ${fault.advice}`)];
  if (fault.url) parts.push(element('p', { class: 'detail' }, fault.url));
  if (helps[fault.button]) parts.push(element('button', { type: 'button', onclick: helps[fault.button] }, words.faults[fault.button]));
  place.replaceChildren(...parts);
}
