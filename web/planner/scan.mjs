// The Connection Scan: connections go in by their departures, and the earliest arrival over them comes out.

/** A scan for the earliest arrival. Connections go in in the order of their departures. */
export class Scan {
  #network;
  #starts; // stop: the walk to it from a beginning of the journey
  #ends; // stop: the walk from it to an end of the journey
  #leave;
  #end;
  #boardings = new Map(); // run: the connection at which it is boarded first, and the arrival before that
  #reached = new Map(); // stop: the least arrival there
  #ready = new Map(); // stop: from when on one may board there, and after which arrival
  #readable = this.#ready; // what of that counts for boarding
  #goal = null; // the arrival with which the best journey ends
  /** The earliest arrival in seconds since 1970, Infinity where there is none. */
  best = Infinity;

  /** The question is `from` and `to`, and `leave` and `end`: the moments between which the journey is. */
  constructor(network, { from, to, leave, end }) {
    this.#network = network;
    this.#starts = network.walksFrom(from);
    this.#ends = network.walksTo(to);
    this.#leave = leave;
    this.#end = end;
  }

  take(connection) {
    if (connection.arrives > this.#end) return;
    const boarding = this.#boardings.get(connection.run) ?? this.#board(connection);
    if (!boarding || !connection.alights || this.#reached.get(connection.to) <= connection.arrives) return;
    this.#arrive({ boarding, connection });
  }

  /** How the run is boarded at the connection, or undefined. */
  #board(connection) {
    if (!connection.boards) return undefined;
    const start = this.#starts.get(connection.from);
    let after = null;
    if (!(start && this.#leave + start.seconds <= connection.departs)) {
      const ready = this.#readable.get(connection.from);
      if (!ready || ready.at > connection.departs) return undefined;
      after = ready.after;
    }
    const boarding = { connection, after };
    this.#boardings.set(connection.run, boarding);
    return boarding;
  }

  #arrive(arrival) {
    const { to, arrives } = arrival.connection;
    this.#reached.set(to, arrives);
    for (const change of this.#network.changesFrom(to)) {
      const at = arrives + change.seconds;
      const before = this.#ready.get(change.to);
      if (!before || at < before.at) this.#ready.set(change.to, { at, after: arrival });
    }
    const end = this.#ends.get(to);
    const there = end ? arrives + end.seconds : Infinity;
    if (there <= this.#end && there < this.best) {
      this.best = there;
      this.#goal = arrival;
    }
  }

  /** Begins a round over connections from the first one on: it finds journeys of one ride more than the rounds before. */
  beginRound() {
    this.#readable = new Map(this.#ready);
    this.#boardings = new Map();
  }

  /** The moment from which on departures change nothing any more. */
  get limit() {
    return Math.min(this.best, this.#end);
  }

  /** The rides of a best journey, each with the connections at which it boards and alights; null where there is none. */
  rides() {
    if (!this.#goal) return null;
    const rides = [];
    for (let arrival = this.#goal; arrival; arrival = arrival.boarding.after) {
      rides.push({ first: arrival.boarding.connection, last: arrival.connection });
    }
    return rides.reverse();
  }
}

/** Of the journeys that arrive by a moment, the rides of one with the fewest, if it has fewer than so many; else null. There are fewer rounds than
 * that over all connections, which are in lists. */
export function fewestRides(network, query, lists, by, rides) {
  const scan = new Scan(network, query);
  for (let round = 1; round < rides; round += 1) {
    scan.beginRound();
    for (const list of lists) list.forEach((connection) => scan.take(connection));
    if (scan.best <= by) return scan.rides();
  }
  return null;
}
