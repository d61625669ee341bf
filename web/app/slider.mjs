// The slider over versions: what was known when. Its last place is the newest version.

import { byId } from './dom.mjs';
import { words } from './words.mjs';
import { clock, dayInWords, wallOf } from './zone.mjs';

const PAUSE = 150; // Milliseconds that the slider rests before its version counts.

/** A moment as a version is named: the time, and the day where it is another one than that of the question. */
export function versionText(moment, zone, date) {
  const wall = wallOf(moment, zone);
  return wall.date === date ? wall.time : `${dayInWords(moment, zone, words.locale)}, ${clock(moment, zone)}`;
}

export class VersionSlider {
  #place = byId('past');
  #range = byId('version');
  #text = byId('version-text');
  #newest = byId('newest');
  #versions = [];
  #zone = 'UTC';
  #date = '';
  #timer = 0;

  /** @param changed is called with the known moment, null for the newest version */
  constructor(changed) {
    this.#range.addEventListener('input', () => {
      this.#say();
      clearTimeout(this.#timer);
      this.#timer = setTimeout(() => changed(this.known), PAUSE);
    });
    this.#newest.addEventListener('click', () => {
      clearTimeout(this.#timer);
      this.#range.value = this.#range.max;
      this.#say();
      this.#range.focus();
      changed(null);
    });
  }

  /** The known moment that the slider shows; null at the newest version. */
  get known() {
    const place = Number(this.#range.value);
    return place >= this.#versions.length - 1 ? null : this.#versions[place];
  }

  /** Shows the versions, and where a known moment is among them. With fewer than two versions there is nothing to choose. */
  show(versions, known, zone, date) {
    this.#versions = versions;
    this.#zone = zone;
    this.#date = date;
    this.#place.hidden = versions.length < 2;
    this.#range.max = String(Math.max(0, versions.length - 1));
    const before = known === null ? versions.length : versions.filter((version) => version <= known).length;
    this.#range.value = String(Math.max(0, before - 1));
    byId('oldest-text').textContent = versions.length > 0 ? versionText(versions[0], zone, date) : '';
    this.#say();
  }

  /** Goes to the version of a place, counted from 0. */
  go(place) {
    this.#range.value = String(place);
    this.#say();
  }

  /** Goes to the next version. It gives whether there is one. */
  next() {
    const place = Number(this.#range.value);
    if (place >= this.#versions.length - 1) return false;
    this.go(place + 1);
    return true;
  }

  #say() {
    if (this.#versions.length === 0) return;
    const moment = this.#versions[Number(this.#range.value)];
    const text = versionText(moment, this.#zone, this.#date);
    const isNewest = this.known === null;
    this.#text.textContent = isNewest ? words.newest(text) : text;
    this.#range.setAttribute('aria-valuetext', this.#text.textContent);
    this.#newest.disabled = isNewest;
  }
}
