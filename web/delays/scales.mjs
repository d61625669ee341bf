// Where things stand in the picture: places down, time across.

const LEAST_GAP = 17; // Pixels between two places at least, so that their names can be read.
const MINUTES = [5, 10, 15, 30, 60, 120, 240]; // between two lines of time
const LEAST_STEP = 58; // Pixels between two lines of time at least.

/**
 * The heights of places, in pixels from the first one on. They are as far apart as the places are, `metres` between each and the next, but never
 * nearer than names need. Where a distance is not known, all gaps are the same.
 */
export function heightsOf(metres, total) {
  const isKnown = metres.length > 0 && metres.every((length) => Number.isFinite(length) && length > 0);
  const lengths = isKnown ? metres : metres.map(() => 1);
  const room = Math.max(total, metres.length * LEAST_GAP);
  // Gaps that would be too small get the least one, and the others share what is left. Each round settles one gap at least.
  let small = new Set();
  for (;;) {
    const left = lengths.reduce((sum, length, place) => (small.has(place) ? sum : sum + length), 0);
    const scale = (room - small.size * LEAST_GAP) / left;
    const more = lengths.map((_, place) => place).filter((place) => !small.has(place) && lengths[place] * scale < LEAST_GAP);
    if (more.length === 0) {
      let height = 0;
      return [0, ...lengths.map((length, place) => (height += small.has(place) ? LEAST_GAP : length * scale))];
    }
    small = new Set([...small, ...more]);
  }
}

/** Time across: from milliseconds to pixels. */
export class TimeScale {
  constructor(since, until, left, width) {
    this.since = since;
    this.until = until;
    this.left = left;
    this.rate = width / (until - since);
  }

  at(milliseconds) {
    return this.left + (milliseconds - this.since) * this.rate;
  }

  /** Moments for lines of time, at round minutes of UTC, which are round on any clock but a few. */
  get ticks() {
    const minutes = MINUTES.find((count) => count * 60_000 * this.rate >= LEAST_STEP) ?? MINUTES.at(-1);
    const step = minutes * 60_000;
    const first = Math.ceil(this.since / step) * step;
    return Array.from({ length: Math.max(0, Math.floor((this.until - first) / step) + 1) }, (_, place) => first + place * step);
  }
}
