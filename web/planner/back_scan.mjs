// The Connection Scan from the end: connections go in from the last departure back, and the latest leaving over them comes out.

/** A scan for the latest leaving. Connections go in from the last departure back. */
export class BackScan {
  #network;
  #starts; // stop: the walk to it from a beginning of the journey
  #ends; // stop: the walk from it to an end of the journey
  #leave;
  #end;
  #alightings = new Map(); // run: the connection after which it is left last, and the departure after that
  #departures = new Map(); // stop: the latest departure by which one gets to an end, and how its run is left
  #start = null; // the departure with which the best journey begins
  /** The latest leaving in seconds since 1970, -Infinity where there is none. */
  best = -Infinity;

  /** The question is `from` and `to`, and `leave` and `end`: the moments between which the journey is. */
  constructor(network, { from, to, leave, end }) {
    this.#network = network;
    this.#starts = network.walksFrom(from);
    this.#ends = network.walksTo(to);
    this.#leave = leave;
    this.#end = end;
  }

  take(connection) {
    if (connection.arrives > this.#end) return;
    const alighting = this.#alightings.get(connection.run) ?? this.#alight(connection);
    if (!alighting || !connection.boards || this.#departures.has(connection.from)) return;
    this.#depart({ connection, alighting });
  }

  /** How the run is left after the connection, or undefined. */
  #alight(connection) {
    if (!connection.alights) return undefined;
    const { to, arrives } = connection;
    const end = this.#ends.get(to);
    let next = null;
    if (!(end && arrives + end.seconds <= this.#end)) {
      next = this.#caught(to, arrives);
      if (!next) return undefined;
    }
    const alighting = { connection, next };
    this.#alightings.set(connection.run, alighting);
    return alighting;
  }

  /** A departure that is caught by a change after the arrival, or undefined. Linear in the changes from the stop. */
  #caught(stop, arrives) {
    for (const change of this.#network.changesFrom(stop)) {
      const departure = this.#departures.get(change.to);
      if (departure && arrives + change.seconds <= departure.connection.departs) return departure;
    }
    return undefined;
  }

  #depart(departure) {
    const { from, departs } = departure.connection;
    this.#departures.set(from, departure);
    const start = this.#starts.get(from);
    const leaves = start ? departs - start.seconds : -Infinity;
    if (leaves >= this.#leave && leaves > this.best) {
      this.best = leaves;
      this.#start = departure;
    }
  }

  /** The moment up to which departures change nothing any more. */
  get limit() {
    return Math.max(this.best, this.#leave);
  }

  /** The rides of a best journey, each with the connections at which it boards and alights; null where there is none. */
  rides() {
    if (!this.#start) return null;
    const rides = [];
    for (let departure = this.#start; departure; departure = departure.alighting.next) {
      rides.push({ first: departure.connection, last: departure.alighting.connection });
    }
    return rides;
  }
}
