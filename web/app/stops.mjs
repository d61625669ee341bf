// Finding stops by what one types. Accents, capitals and the order of words do not count.

/** The words of a text, plain: small letters without accents. */
export function plainWords(text) {
  const plain = text
    .normalize('NFD')
    .replace(/\p{Mark}/gu, '')
    .toLowerCase()
    .replace(/ł/g, 'l')
    .replace(/ø/g, 'o')
    .replace(/đ/g, 'd')
    .replace(/æ/g, 'ae')
    .replace(/œ/g, 'oe')
    .replace(/ß/g, 'ss');
  return plain.split(/[^\p{Letter}\p{Number}]+/u).filter((word) => word !== '');
}

/**
 * The stops that a traveller chooses from, by name.
 *
 * A stop whose parent has the same name is left out, since the parent stands for all of its stops. A stop without a name goes by its id.
 */
export class StopList {
  /** @param stops `{ id, name, platform, parent }` each */
  constructor(stops) {
    this.stops = new Map(stops.map((stop) => [stop.id, stop]));
    this.entries = stops
      .filter((stop) => !this.#isBehindParent(stop))
      .map((stop) => ({ stop, words: plainWords(stop.name || stop.id), whole: plainWords(stop.name || stop.id).join(' ') }))
      .sort((one, other) => (one.whole < other.whole ? -1 : Number(one.whole > other.whole)));
  }

  #isBehindParent(stop) {
    const parent = this.stops.get(stop.parent);
    return parent !== undefined && (parent.name === stop.name || stop.name === '');
  }

  /** The stop of an id, or undefined. */
  get(id) {
    return this.stops.get(id);
  }

  /** What a stop is called: its name, else its parent's, else its id. */
  nameOf(id) {
    const stop = this.stops.get(id);
    return stop?.name || this.stops.get(stop?.parent)?.name || id;
  }

  /**
   * Stops in each of whose names every typed word begins a word, or whose id was typed. Those that begin with what was typed come first. It looks
   * at every stop once.
   */
  find(typed, most) {
    const words = plainWords(typed);
    const whole = words.join(' ');
    const first = [];
    const others = [];
    for (const { stop, words: own, whole: name } of this.entries) {
      if (stop.id === typed.trim()) first.unshift(stop);
      else if (words.length > 0 && words.every((word) => own.some((other) => other.startsWith(word)))) {
        (name.startsWith(whole) ? first : others).push(stop);
      }
    }
    return [...first, ...others].slice(0, most);
  }

  /** The one stop whose name was typed in full, or whose id; undefined where there is none or are several. */
  exact(typed) {
    if (this.stops.has(typed.trim())) return this.stops.get(typed.trim());
    const whole = plainWords(typed).join(' ');
    const found = this.entries.filter((entry) => entry.whole === whole);
    return found.length === 1 ? found[0].stop : undefined;
  }
}
