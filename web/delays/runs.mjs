// The runs of a line, from the connections of pages.

/**
 * @typedef {object} Call a vehicle at a place
 * @property {string} stop the id of the stop
 * @property {string} place the id of the station that the stop is of, or of the stop where it has none
 * @property {?number} arrives milliseconds since 1970, delay included; null at the first call
 * @property {?number} arrivalDelay seconds
 * @property {?number} departs null at the last call
 * @property {?number} departureDelay seconds
 *
 * @typedef {object} Run
 * @property {string} run its name
 * @property {string} trip
 * @property {string} headsign
 * @property {Call[]} calls
 */

/** Gathers the connections of one version into runs, by their names. */
export class RunList {
  #runs = new Map();

  /**
   * @param placeOf the place of a stop, by its id
   * @param headsignOf the headsign of a trip, by its id
   */
  constructor(placeOf, headsignOf) {
    this.placeOf = placeOf;
    this.headsignOf = headsignOf;
  }

  /** Connections go in by their departures. */
  take(connection) {
    const { run, trip } = connection;
    if (!this.#runs.has(run)) this.#runs.set(run, { run, trip, headsign: this.headsignOf(trip), calls: [] });
    const { calls } = this.#runs.get(run);
    const last = calls.at(-1);
    const isNext = last?.stop === connection.from && last.departs === null;
    if (isNext) Object.assign(last, { departs: connection.departs.getTime(), departureDelay: connection.departureDelay });
    else calls.push(this.#call(connection.from, { departs: connection.departs.getTime(), departureDelay: connection.departureDelay }));
    calls.push(this.#call(connection.to, { arrives: connection.arrives.getTime(), arrivalDelay: connection.arrivalDelay }));
  }

  #call(stop, what) {
    return { stop, place: this.placeOf(stop), arrives: null, arrivalDelay: null, departs: null, departureDelay: null, ...what };
  }

  /** The runs, the first to depart first. */
  get runs() {
    return [...this.#runs.values()];
  }
}

/** When a call begins and ends as it was known; both are the same at the ends of a run. */
export function knownTimes({ arrives, departs }) {
  return [arrives ?? departs, departs ?? arrives];
}

/** When a call begins and ends by the timetable. */
export function plannedTimes({ arrives, arrivalDelay, departs, departureDelay }) {
  const arrival = arrives === null ? null : arrives - arrivalDelay * 1000;
  const departure = departs === null ? null : departs - departureDelay * 1000;
  return [arrival ?? departure, departure ?? arrival];
}

/** The delay of a call in seconds: that of its departure, or of its arrival at the last stop. */
export function delayOf({ arrivalDelay, departureDelay }) {
  return departureDelay ?? arrivalDelay;
}

const MINUTE = 60;

/** How late a delay is, in the classes of the legend. */
export function lateness(seconds) {
  if (seconds < MINUTE) return 'good';
  return seconds < 5 * MINUTE ? 'some' : 'much';
}

/** Whether a run goes down the places, by where its first and last known place stand. */
function goesDown(run, places) {
  const known = run.calls.map(({ place }) => places.indexOf(place)).filter((index) => index >= 0);
  return known.length < 2 || known[0] <= known.at(-1);
}

/**
 * The places of a line from top to bottom: those of its longest run, and among them those of other runs, each after the place before it. It looks
 * at each call of each run once for each place.
 */
export function placesOf(runs) {
  const longest = runs.reduce((best, run) => (run.calls.length > best.calls.length ? run : best));
  const places = [...new Set(longest.calls.map(({ place }) => place))];
  const known = new Set(places);
  for (const run of runs) {
    if (run.calls.every(({ place }) => known.has(place))) continue;
    const calls = goesDown(run, places) ? run.calls : [...run.calls].reverse();
    let after = -1;
    for (const { place } of calls) {
      if (!known.has(place)) {
        places.splice(after + 1, 0, place);
        known.add(place);
      }
      after = places.indexOf(place);
    }
  }
  return places;
}

/** The runs of a list with this headsign; all with an empty one. */
export function towards(runs, headsign) {
  return headsign === '' ? runs : runs.filter((run) => run.headsign === headsign);
}

/** Whether a run is on its way at some moment of a span, by `knownTimes` or `plannedTimes`. */
export function isWithin(run, timesOf, since, until) {
  return timesOf(run.calls[0])[1] <= until && timesOf(run.calls.at(-1))[0] >= since;
}
