// The answer: a journey as legs, made of the connections at which its rides board and alight.
import { runOf } from './documents.mjs';
import { readRun } from './texts.mjs';

const dateOf = (seconds) => new Date(seconds * 1000);

/** The connections of each ride, found in one pass over lists of connections. */
function connectionsOf(rides, lists) {
  const runs = new Map(rides.map(({ first }) => [first.run, []]));
  for (const connections of lists) {
    for (const connection of connections) runs.get(connection.run)?.push(connection);
  }
  return rides.map(({ first, last }) => {
    const all = runs.get(first.run);
    return all.slice(all.indexOf(first), all.indexOf(last) + 1);
  });
}

/** Where the vehicle stops: at the beginning of each connection, and at the end of the last one. */
function callsOf(connections) {
  const calls = connections.map((connection, at) => ({
    stop: connection.from,
    arrives: at === 0 ? null : dateOf(connections[at - 1].arrives),
    arrivalDelay: at === 0 ? null : connections[at - 1].arrivalDelay,
    departs: dateOf(connection.departs),
    departureDelay: connection.departureDelay,
    sequence: connection.sequence,
  }));
  const { to, arrives, arrivalDelay } = connections.at(-1);
  return [...calls, { stop: to, arrives: dateOf(arrives), arrivalDelay, departs: null, departureDelay: null, sequence: null }];
}

/** What the name of a connection's run says, and its route by the names of the publisher. */
function runParts(connection, names) {
  const run = runOf(connection);
  const parts = readRun(run);
  return { run, ...parts, route: names?.trips?.[parts.trip]?.route ?? null };
}

/** A connection as it is handed out. */
export function connectionOf(connection, names) {
  const { base, departs, arrives, ...rest } = connection;
  return { ...rest, ...runParts(connection, names), departs: dateOf(departs), arrives: dateOf(arrives) };
}

function rideOf({ first, last }, connections, names) {
  return {
    kind: 'ride',
    base: first.base,
    ...runParts(first, names.get(first.base)),
    from: first.from,
    to: last.to,
    departs: dateOf(first.departs),
    arrives: dateOf(last.arrives),
    departureDelay: first.departureDelay,
    arrivalDelay: last.arrivalDelay,
    calls: callsOf(connections),
  };
}

/** The walk at an end of a journey as a list of legs: none where it takes no time. */
function walkLegs({ from, to, seconds }) {
  return seconds === 0 ? [] : [{ kind: 'walk', from, to, seconds }];
}

function changeBetween(network, from, to) {
  return { kind: 'change', from, to, seconds: network.secondsBetween(from, to) };
}

/** When a journey of these rides leaves, and when it arrives, in seconds. */
export function spanOf(network, query, rides) {
  const { before, after, first, last } = endsOf(network, query, rides);
  return { leaves: first.departs - before.seconds, arrives: last.arrives + after.seconds };
}

function endsOf(network, query, rides) {
  const { first } = rides[0];
  const { last } = rides.at(-1);
  return { first, last, before: network.walksFrom(query.from).get(first.from), after: network.walksTo(query.to).get(last.to) };
}

/** The journey of these rides, whose connections are in the timetable. `names` has those of publishers by their base. */
export function journeyOf(network, query, rides, timetable, names) {
  const { before, after } = endsOf(network, query, rides);
  const { leaves, arrives } = spanOf(network, query, rides);
  const connections = connectionsOf(rides, timetable.between(leaves, arrives));
  const legs = rides.flatMap((ride, at) => {
    const leg = rideOf(ride, connections[at], names);
    return at === 0 ? [leg] : [changeBetween(network, rides[at - 1].last.to, ride.first.from), leg];
  });
  return { departs: dateOf(leaves), arrives: dateOf(arrives), legs: [...walkLegs(before), ...legs, ...walkLegs(after)] };
}
