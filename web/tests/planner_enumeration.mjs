// All journeys of a small timetable, one by one. It follows the words of docs/PROTOCOL.md, "What counts as a journey", and no scan.

/** The stops where a journey may begin or end. */
function endsOf(stops, named) {
  return stops.filter(({ id, parent }) => id === named || parent === named).map(({ id }) => id);
}

/** The seconds of the walk between an end of the question and a stop, 0 at an end itself, or undefined. */
function walk(ends, stop, seconds) {
  if (ends.includes(stop)) return 0;
  const all = ends.map(seconds).filter((value) => value !== undefined);
  return all.length > 0 ? Math.min(...all) : undefined;
}

/** All rides: from the departure of a connection to the arrival of the same or a later one of its run. */
function ridesOf(connections) {
  const ordered = [...connections].sort((one, other) => one.departs - other.departs || one.sequence - other.sequence);
  return ordered.flatMap((first, place) =>
    ordered
      .slice(place)
      .filter((last) => last.trip === first.trip && first.boards !== false && last.alights !== false)
      .map((last) => ({ trip: first.trip, from: first.from, departs: first.departs, to: last.to, arrives: last.arrives })),
  );
}

/** All journeys of at most so many rides as `{ leaves, arrives, rides }`, for a question of `from`, `to`, `leave` and `end` in seconds. */
export function journeys({ connections, stops, changes, from, to, leave, end, most = 4 }) {
  const table = new Map(changes.map(([one, other, seconds]) => [`${one} ${other}`, seconds]));
  const seconds = (one, other) => table.get(`${one} ${other}`);
  const rides = ridesOf(connections).filter((ride) => ride.arrives <= end);
  const starts = endsOf(stops, from);
  const goals = endsOf(stops, to);
  const found = [];
  const goOn = (chain) => {
    const first = chain[0];
    const last = chain.at(-1);
    const before = walk(starts, first.from, (stop) => seconds(stop, first.from));
    const after = walk(goals, last.to, (stop) => seconds(last.to, stop));
    const leaves = first.departs - before;
    if (after !== undefined && last.arrives + after <= end) found.push({ leaves, arrives: last.arrives + after, rides: chain.length });
    if (chain.length === most) return;
    for (const next of rides) {
      const change = seconds(last.to, next.from);
      if (change !== undefined && last.arrives + change <= next.departs) goOn([...chain, next]);
    }
  };
  for (const ride of rides) {
    const before = walk(starts, ride.from, (stop) => seconds(stop, ride.from));
    if (before !== undefined && ride.departs - before >= leave) goOn([ride]);
  }
  return found;
}

/** Those of which none leaves later and arrives as early, or arrives earlier and leaves as late: one of each leaving, the earliest first. */
export function best(found) {
  const isWorse = (one) => (other) => other.leaves >= one.leaves && other.arrives <= one.arrives && (other.leaves > one.leaves || other.arrives < one.arrives);
  const kept = found.filter((one) => !found.some(isWorse(one)));
  const spans = new Map();
  for (const { leaves, arrives, rides } of kept) {
    const before = spans.get(leaves);
    if (!before || rides < before.rides) spans.set(leaves, { leaves, arrives, rides });
  }
  return [...spans.values()].sort((one, other) => one.leaves - other.leaves);
}
