// Stops, and the changes between them, of one publisher or of several together.

function listOf(table, key) {
  let list = table.get(key);
  if (!list) table.set(key, (list = []));
  return list;
}

/** What a scan asks of stops. Linear in the stops and the changes to make. */
export class Network {
  #stops = new Set();
  #children = new Map(); // parent: its stops
  #from = new Map(); // stop: the changes from it
  #to = new Map(); // stop: the changes to it

  /** Stops with id and parent, each id perhaps several times, and changes with from, to and seconds, one for each two stops. */
  constructor(stops, changes) {
    for (const { id, parent } of stops) {
      this.#stops.add(id);
      if (parent !== undefined) listOf(this.#children, parent).push(id);
    }
    for (const change of changes) {
      listOf(this.#from, change.from).push(change);
      listOf(this.#to, change.to).push(change);
    }
  }

  has(stop) {
    return this.#stops.has(stop);
  }

  changesFrom(stop) {
    return this.#from.get(stop) ?? [];
  }

  secondsBetween(from, to) {
    return this.changesFrom(from).find((change) => change.to === to)?.seconds;
  }

  /** Where a journey may begin or end that is asked for from or to a stop: there, or at a stop of which it is the parent. */
  #endsOf(stop) {
    return [...new Set([stop, ...(this.#children.get(stop) ?? [])])];
  }

  /** The walk from the nearest beginning to each stop from which a journey from the stop may set out. It takes 0 seconds from a beginning itself. */
  walksFrom(stop) {
    return this.#walks(stop, this.#from, (change) => change.to);
  }

  /** The walk from each stop to the nearest end of a journey to the stop, likewise. */
  walksTo(stop) {
    return this.#walks(stop, this.#to, (change) => change.from);
  }

  #walks(stop, changes, innerOf) {
    const ends = this.#endsOf(stop);
    const walks = new Map(ends.map((end) => [end, { from: end, to: end, seconds: 0 }]));
    for (const end of ends) {
      for (const change of changes.get(end) ?? []) {
        const before = walks.get(innerOf(change));
        if (before === undefined || change.seconds < before.seconds) walks.set(innerOf(change), change);
      }
    }
    return walks;
  }
}

/** The changes of several documents, one for each two stops: the shortest. */
function shortest(changes) {
  const table = new Map(); // from: to: the change
  for (const change of changes) {
    let ends = table.get(change.from);
    if (!ends) table.set(change.from, (ends = new Map()));
    const before = ends.get(change.to);
    if (before === undefined || change.seconds < before.seconds) ends.set(change.to, change);
  }
  return [...table.values()].flatMap((ends) => [...ends.values()]);
}

const networks = new WeakMap(); // of a document: its network, since a kept document has many questions

/** The network of one publisher. */
export function networkOf(document) {
  if (!networks.has(document)) networks.set(document, new Network(document.stops, document.changes));
  return networks.get(document);
}

/** The network of several documents, with changes besides: stops of one id are one. */
export function joinedNetwork(documents, changes) {
  return new Network(documents.flatMap(({ stops }) => stops), shortest([...documents.flatMap((document) => document.changes), ...changes]));
}
