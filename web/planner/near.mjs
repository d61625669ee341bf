// Changes between stops of different publishers that are near to one another.
import { BadQuestion } from './errors.mjs';

const EARTH = 6_371_000; // metres
const RADIANS = Math.PI / 180;
const PACE = 1; // metres a second
const LEAST = 120; // seconds of a change

/** A place on the earth as a point in space, in metres. Near places are near points everywhere, at the poles too. */
function pointOf(lat, lon) {
  const width = EARTH * Math.cos(lat * RADIANS);
  return [width * Math.cos(lon * RADIANS), width * Math.sin(lon * RADIANS), EARTH * Math.sin(lat * RADIANS)];
}

function placesOf({ names, stop = (id) => id }, partner) {
  if (!names?.stops) throw new BadQuestion('near needs the names of each publisher, with the coordinates of its stops');
  return Object.entries(names.stops)
    .filter(([, { lat, lon }]) => Number.isFinite(lat) && Number.isFinite(lon))
    .map(([id, { lat, lon }]) => ({ id: stop(id), partner, point: pointOf(lat, lon) }));
}

const STEPS = [-1, 0, 1];
const AROUND = STEPS.flatMap((x) => STEPS.flatMap((y) => STEPS.map((z) => [x, y, z])));

/** The changes of at most so many metres, both ways. Space is cut into cubes that wide, so that each place is compared with those around it alone. */
export function changesNear(partners, { metres, pace = PACE, least = LEAST }) {
  if (!(metres > 0 && pace > 0 && least >= 1)) throw new BadQuestion('near has metres and pace above 0, and at least one second');
  const cubes = new Map();
  const changes = [];
  for (const place of partners.flatMap(placesOf)) {
    const cube = place.point.map((part) => Math.floor(part / metres));
    for (const step of AROUND) {
      for (const other of cubes.get(cube.map((part, at) => part + step[at]).join()) ?? []) {
        if (other.partner !== place.partner && other.id !== place.id) changes.push(...changesBetween(place, other, metres, pace, least));
      }
    }
    const key = cube.join();
    cubes.set(key, [...(cubes.get(key) ?? []), place]);
  }
  return changes;
}

function changesBetween(one, other, metres, pace, least) {
  const distance = Math.hypot(...one.point.map((part, at) => part - other.point[at]));
  if (distance > metres) return [];
  const seconds = Math.max(Math.ceil(least), Math.ceil(distance / pace));
  return [
    { from: one.id, to: other.id, seconds },
    { from: other.id, to: one.id, seconds },
  ];
}
