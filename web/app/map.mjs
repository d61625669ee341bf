// A map drawn from the stops' own coordinates, with one journey on it. One unit of the drawing is one pixel.

import { byId, drawing, element } from './dom.mjs';
import { rideNames } from './journeys.mjs';
import { words } from './words.mjs';

const METRES = 111_320; // of a degree of latitude
const MARGIN = 44; // pixels around what is shown
const LEAST = 1200; // Metres that a map shows at least,
const MOST_DOTS = 3000; // and how many stops at most.
const LABEL = 18; // How many pixels a label is high.
const FONTS = { true: '650 13.5px', false: '400 12.5px' }; // of an end's name, and of another one, as in style.css

/** How many pixels a label is wide. */
function lengthOf(text, isEnd) {
  lengthOf.pen ??= document.createElement('canvas').getContext('2d');
  lengthOf.pen.font = `${FONTS[isEnd]} ${getComputedStyle(document.body).fontFamily}`;
  return lengthOf.pen.measureText(text).width;
}

function hasPlace(stop) {
  return Number.isFinite(stop?.lat) && Number.isFinite(stop?.lon);
}

/** From coordinates to pixels, so that all these stops are seen. North is up. */
class Projection {
  constructor(stops, width, height) {
    const middle = (Math.min(...stops.map(({ lat }) => lat)) + Math.max(...stops.map(({ lat }) => lat))) / 2;
    this.east = METRES * Math.cos((middle * Math.PI) / 180);
    const xs = stops.map(({ lon }) => lon * this.east);
    const ys = stops.map(({ lat }) => -lat * METRES);
    const [left, right, top, bottom] = [Math.min(...xs), Math.max(...xs), Math.min(...ys), Math.max(...ys)];
    const room = { x: Math.max(1, width - 2 * MARGIN), y: Math.max(1, height - 2 * MARGIN) };
    this.scale = Math.min(room.x / Math.max(right - left, LEAST), room.y / Math.max(bottom - top, LEAST));
    this.x = width / 2 - ((left + right) / 2) * this.scale;
    this.y = height / 2 - ((top + bottom) / 2) * this.scale;
  }

  of({ lat, lon }) {
    return { x: this.x + lon * this.east * this.scale, y: this.y - lat * METRES * this.scale };
  }
}

function pathOf(points) {
  return points.map(({ x, y }, place) => `${place === 0 ? 'M' : 'L'}${x.toFixed(1)} ${y.toFixed(1)}`).join('');
}

function isInside({ x, y }, width, height) {
  return x > -4 && y > -4 && x < width + 4 && y < height + 4;
}

/** All stops without a parent that are to be seen, as one path of dots. It looks at every stop once. */
function dots(day, projection, width, height) {
  const points = [];
  for (const stop of day.stops.stops.values()) {
    if (stop.parent !== undefined || !hasPlace(stop)) continue;
    const point = projection.of(stop);
    if (isInside(point, width, height)) points.push(point);
    if (points.length === MOST_DOTS) break;
  }
  return drawing('path', { class: 'stops', d: points.map(({ x, y }) => `M${x.toFixed(1)} ${y.toFixed(1)}h0`).join('') });
}

/** A length in round metres that is at most some 90 pixels. */
function scaleBar(projection, height) {
  const most = 90 / projection.scale;
  const power = 10 ** Math.floor(Math.log10(most));
  const metres = [5, 2, 1].map((digit) => digit * power).find((length) => length <= most);
  const width = metres * projection.scale;
  const y = height - 12;
  return drawing('g', { class: 'scale' }, drawing('path', { d: `M12 ${y - 4}v4h${width.toFixed(1)}v-4` }), drawing('text', { x: 16, y: y - 6 }, words.metres(metres)));
}

/** The way of a leg: through the stops of a ride, straight for a walk. Stops without coordinates are left out. */
function wayOf(day, projection, leg) {
  const ids = leg.kind === 'ride' ? leg.calls.map(({ stop }) => stop) : [leg.from, leg.to];
  return ids.map((id) => day.stops.get(id)).filter(hasPlace).map((stop) => projection.of(stop));
}

/** The legs of a journey as lines: rides in their colours, walks dotted. */
function legLines(day, projection, journey) {
  return journey.legs.map((leg) => {
    const points = wayOf(day, projection, leg);
    const d = pathOf(points);
    if (leg.kind !== 'ride') return drawing('path', { class: 'walk', d });
    const calls = points.map(({ x, y }) => drawing('circle', { cx: x.toFixed(1), cy: y.toFixed(1), r: 2.5 }));
    return drawing('g', { class: 'ride-line' }, drawing('path', { class: 'casing', d }), drawing('path', { d, stroke: rideNames(day, leg).colours.ground }), calls);
  });
}

/** Where one begins, changes and ends: the id of a stop, and whether it is an end. */
function turns(journey) {
  const { legs } = journey;
  const inner = legs.slice(1).map((leg) => ({ id: leg.from, isEnd: false }));
  return [{ id: legs[0].from, isEnd: true }, ...inner, { id: legs.at(-1).to, isEnd: true }];
}

/** Places along the lines of a journey, at most some 6 pixels apart: small boxes that labels keep away from. */
function lineBoxes(day, projection, journey) {
  return journey.legs.flatMap((leg) => {
    const points = wayOf(day, projection, leg);
    return points.slice(1).flatMap((end, place) => {
      const begin = points[place];
      const count = Math.max(1, Math.ceil(Math.hypot(end.x - begin.x, end.y - begin.y) / 6));
      return Array.from({ length: count }, (_, step) => {
        const [x, y] = [begin.x + ((end.x - begin.x) * step) / count, begin.y + ((end.y - begin.y) * step) / count];
        return { left: x - 3, right: x + 3, top: y - 3, bottom: y + 3 };
      });
    });
  });
}

/** The labels that have room, ends first. A name stands once. */
function labels(day, projection, journey, width, height) {
  const taken = [];
  const lines = lineBoxes(day, projection, journey);
  const named = new Set();
  const nodes = [];
  for (const { id, isEnd } of turns(journey).sort((one, other) => Number(other.isEnd) - Number(one.isEnd))) {
    const stop = day.stops.get(id);
    const name = day.stops.nameOf(id);
    if (!hasPlace(stop) || named.has(name)) continue;
    named.add(name);
    const point = projection.of(stop);
    nodes.push(drawing('circle', { class: isEnd ? 'end' : 'turn', cx: point.x.toFixed(1), cy: point.y.toFixed(1), r: isEnd ? 6 : 4.5 }));
    const label = placed(point, lengthOf(name, isEnd), { taken, lines, width, height });
    if (!label) continue;
    taken.push(label.box);
    nodes.push(drawing('text', { class: isEnd ? 'name end-name' : 'name', x: label.x.toFixed(1), y: label.y.toFixed(1), 'text-anchor': label.anchor }, name));
  }
  return drawing('g', { class: 'names' }, nodes);
}

function meet(one, other) {
  return one.left < other.right && other.left < one.right && one.top < other.bottom && other.top < one.bottom;
}

/** Where a label of some length stands beside a point: where it hides least of the lines. It is null where other labels leave no room. */
function placed({ x, y }, length, { taken, lines, width, height }) {
  const choices = [
    { anchor: 'start', x: x + 11, y: y + 4, left: x + 11 },
    { anchor: 'end', x: x - 11, y: y + 4, left: x - 11 - length },
    { anchor: 'middle', x, y: y - 12, left: x - length / 2 },
    { anchor: 'middle', x, y: y + 22, left: x - length / 2 },
  ];
  let best = null;
  for (const choice of choices) {
    const box = { left: choice.left, right: choice.left + length, top: choice.y - LABEL + 4, bottom: choice.y + 4 };
    const isWithin = box.left >= 4 && box.right <= width - 4 && box.top >= 4 && box.bottom <= height - 24;
    if (!isWithin || taken.some((other) => meet(box, other))) continue;
    const hidden = lines.filter((line) => meet(box, line)).length;
    if (best === null || hidden < best.hidden) best = { ...choice, box, hidden };
  }
  return best;
}

function description(day, journey) {
  if (!journey) return words.mapOfStops;
  const rides = journey.legs.filter((leg) => leg.kind === 'ride').map((ride) => {
    const { kind, label } = rideNames(day, ride);
    return `${kind} ${label}, ${day.stops.nameOf(ride.from)} – ${day.stops.nameOf(ride.to)}`;
  });
  return words.mapOf(day.stops.nameOf(journey.legs[0].from), day.stops.nameOf(journey.legs.at(-1).to), rides.join('; ') || words.onlyWalk);
}

/** The map in the page. It is drawn anew when its place gets another size. */
export class JourneyMap {
  #place = byId('map');
  #day = null;
  #journey = null;

  constructor() {
    new ResizeObserver(() => this.#draw()).observe(this.#place);
  }

  /** Shows a journey, or all stops where it is null. */
  show(day, journey) {
    this.#day = day;
    this.#journey = journey;
    this.#draw();
  }

  #draw() {
    const { clientWidth: width, clientHeight: height } = this.#place;
    if (!this.#day || width === 0 || height === 0) return;
    const ids = this.#journey?.legs.flatMap((leg) => (leg.kind === 'ride' ? leg.calls.map(({ stop }) => stop) : [leg.from, leg.to]));
    const shown = (ids ? ids.map((id) => this.#day.stops.get(id)) : [...this.#day.stops.stops.values()]).filter(hasPlace);
    if (shown.length === 0) {
      this.#place.replaceChildren(element('p', { class: 'note' }, words.noMap));
      return;
    }
    const projection = new Projection(shown, width, height);
    const parts = [dots(this.#day, projection, width, height), scaleBar(projection, height)];
    if (this.#journey) parts.push(...legLines(this.#day, projection, this.#journey), labels(this.#day, projection, this.#journey, width, height));
    const label = description(this.#day, this.#journey);
    this.#place.replaceChildren(drawing('svg', { viewBox: `0 0 ${width} ${height}`, role: 'img', 'aria-label': label }, parts));
  }
}
