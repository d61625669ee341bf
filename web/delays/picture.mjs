// The string-line picture: stops go down, time goes across, and each run is a string. The timetable is thin, what was known is thick.
//
// All strings of one colour are one path, so that five hundred runs are drawn at once. One unit of the drawing is one pixel.

import { drawing } from '../app/dom.mjs';
import { words } from '../app/words.mjs';
import { clock } from '../app/zone.mjs';
import { delayOf, knownTimes, lateness, plannedTimes } from './runs.mjs';
import { heightsOf, TimeScale } from './scales.mjs';

const TOP = 26; // pixels above the first place
const BOTTOM = 14;
const RIGHT = 18;
const LEAST_HEIGHT = 380;
const REACH = 14; // How many pixels from a string one may point.
const CLASSES = ['good', 'some', 'much'];

function lineTo(isFirst, x, y) {
  return `${isFirst ? 'M' : 'L'}${x.toFixed(1)} ${y.toFixed(1)}`;
}

/** What the names of places take at the left. */
function namesWidth(width) {
  return width < 560 ? 104 : 150;
}

function shortened(name, width) {
  const most = Math.floor((width - 12) / 6.4);
  return name.length > most ? `${name.slice(0, most - 1)}…` : name;
}

export class Picture {
  #place;
  #svg = null;
  #parts = {};
  #strings = []; // of the frame: `{ run, points }`, for pointing
  #setting = null;

  constructor(place) {
    this.#place = place;
  }

  /**
   * Sets what all frames have: the places with their names and distances, the span, the zone.
   *
   * @param setting `{ places, nameOf, metres, since, until, zone, planned }`; `planned` are the runs of the timetable
   */
  set(setting) {
    const width = this.#place.clientWidth;
    const left = namesWidth(width);
    const heights = heightsOf(setting.metres, LEAST_HEIGHT);
    const height = TOP + heights.at(-1) + BOTTOM;
    this.#setting = { ...setting, left, width, height };
    this.time = new TimeScale(setting.since, setting.until, left, width - left - RIGHT);
    this.heights = new Map(setting.places.map((place, index) => [place, TOP + heights[index]]));
    const clip = drawing('clipPath', { id: 'inside' }, drawing('rect', { x: left, y: 0, width: width - left, height }));
    const strings = drawing('g', { 'clip-path': 'url(#inside)' });
    this.#parts = {
      planned: drawing('path', { class: 'planned', d: this.#plannedPath(setting.planned) }),
      cancelled: drawing('path', { class: 'cancelled' }),
      ...Object.fromEntries(CLASSES.map((name) => [name, drawing('path', { class: `string ${name}` })])),
      now: drawing('path', { class: 'now' }),
      chosen: drawing('g', { class: 'chosen' }),
    };
    strings.append(...Object.values(this.#parts));
    this.#svg = drawing('svg', { viewBox: `0 0 ${width} ${height}`, width, height, 'aria-hidden': 'true' }, clip, this.#grid(), strings);
    this.#place.replaceChildren(this.#svg);
  }

  #grid() {
    const { places, nameOf, zone, left, width, height } = this.#setting;
    const across = places.map((place) => `M${left} ${this.heights.get(place).toFixed(1)}H${width - RIGHT}`).join('');
    const down = this.time.ticks.map((moment) => `M${this.time.at(moment).toFixed(1)} ${TOP - 6}V${height - BOTTOM + 6}`).join('');
    const names = places.map((place) => drawing('text', { x: left - 10, y: (this.heights.get(place) + 4).toFixed(1), 'text-anchor': 'end' }, shortened(nameOf(place), left), drawing('title', {}, nameOf(place))));
    const times = this.time.ticks.map((moment) => drawing('text', { x: this.time.at(moment).toFixed(1), y: 13, 'text-anchor': 'middle' }, clock(moment, zone)));
    return drawing('g', { class: 'grid' }, drawing('path', { d: across + down }), names, times);
  }

  /** The points of a run, two a call. */
  #points(run, timesOf) {
    return run.calls.flatMap((call) => timesOf(call).map((moment) => ({ x: this.time.at(moment), y: this.heights.get(call.place) })));
  }

  #plannedPath(runs) {
    return runs.map((run) => this.#points(run, plannedTimes).map(({ x, y }, place) => lineTo(place === 0, x, y)).join('')).join('');
  }

  /** Draws what was known at a version. `cancelled` are runs of the timetable that it does not have. */
  show({ version, runs }, cancelled) {
    const paths = { good: [], some: [], much: [] };
    this.#strings = runs.map((run) => ({ run, points: this.#points(run, knownTimes) }));
    for (const { run, points } of this.#strings) {
      let last = null;
      for (let place = 1; place < points.length; place += 1) {
        const name = lateness(delayOf(run.calls[place >> 1]));
        const { x, y } = points[place - 1];
        if (name !== last) paths[name].push(lineTo(true, x, y));
        paths[name].push(lineTo(false, points[place].x, points[place].y));
        last = name;
      }
    }
    for (const name of CLASSES) this.#parts[name].setAttribute('d', paths[name].join(''));
    this.#parts.cancelled.setAttribute('d', this.#plannedPath(cancelled));
    const now = this.time.at(version.getTime());
    this.#parts.now.setAttribute('d', now >= this.#setting.left ? `M${now.toFixed(1)} 0V${this.#setting.height}` : '');
  }

  /** Marks a run, and says its delay at each stop; null marks none. */
  choose(name) {
    const string = this.#strings.find(({ run }) => run.run === name);
    if (!string) return this.#parts.chosen.replaceChildren();
    const { run, points } = string;
    const known = points.map(({ x, y }, place) => lineTo(place === 0, x, y)).join('');
    const labels = run.calls.map((call, place) => {
      const { x, y } = points[2 * place + 1];
      return drawing('text', { x: (x + 7).toFixed(1), y: (y - 3).toFixed(1) }, words.seconds(delayOf(call)));
    });
    this.#parts.chosen.replaceChildren(
      drawing('path', { class: 'casing', d: known }),
      drawing('path', { class: 'planned', d: this.#plannedPath([run]) }),
      drawing('path', { class: 'own', d: known }),
      ...run.calls.map((_, place) => drawing('circle', { cx: points[2 * place].x.toFixed(1), cy: points[2 * place].y.toFixed(1), r: 3 })),
      ...labels,
    );
  }

  /** The name of the run at a place of the window, or null. It looks at every string once. */
  runAt(clientX, clientY) {
    const box = this.#svg?.getBoundingClientRect();
    if (!box) return null;
    const [x, y] = [clientX - box.left, clientY - box.top];
    let best = REACH;
    let found = null;
    for (const { run, points } of this.#strings) {
      if (points[0].x - REACH > x || points.at(-1).x + REACH < x) continue;
      for (let place = 1; place < points.length; place += 1) {
        const distance = distanceTo(x, y, points[place - 1], points[place]);
        if (distance < best) [best, found] = [distance, run.run];
      }
    }
    return found;
  }
}

/** How far a point is from a straight piece. */
function distanceTo(x, y, begin, end) {
  const [dx, dy] = [end.x - begin.x, end.y - begin.y];
  const length = dx * dx + dy * dy;
  const share = length === 0 ? 0 : Math.max(0, Math.min(1, ((x - begin.x) * dx + (y - begin.y) * dy) / length));
  return Math.hypot(x - begin.x - share * dx, y - begin.y - share * dy);
}
