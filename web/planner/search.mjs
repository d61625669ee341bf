// Searches over a timetable, which grows as far as they need it.
import { BackScan } from './back_scan.mjs';
import { Scan, fewestRides } from './scan.mjs';

/** What a search is about: `network`, `timetable`, and `report`, which hears how far it has come. */

/** The rides of a journey that arrives as early as any, or null. The query is `from`, `to`, `leave` and `end`. */
export async function earliest({ network, timetable, report }, query) {
  const scan = new Scan(network, query);
  const { lists } = timetable;
  let at = lists.findIndex(({ until }) => until >= query.leave);
  if (at < 0) at = lists.length;
  for (; at < lists.length || (await timetable.grow()); at += 1) {
    const { until, connections } = lists[at];
    for (const connection of connections) scan.take(connection);
    timetable.limit = scan.limit;
    report(connections.at(-1)?.departs, scan.best);
    if (until >= scan.limit) break;
  }
  return scan.rides();
}

/** The rides of a journey that leaves as late as any, or null, likewise. */
export async function latest({ network, timetable, report }, query) {
  const scan = new BackScan(network, query);
  const { lists } = timetable;
  let at = lists.findLastIndex(({ from }) => from <= query.end);
  for (; at >= 0 || (await timetable.grow()); at -= 1) {
    // A timetable that grows back gets its new list at the front.
    if (at < 0) at = 0;
    const { from, connections } = lists[at];
    for (let place = connections.length - 1; place >= 0; place -= 1) scan.take(connections[place]);
    timetable.limit = scan.limit;
    report(connections[0]?.departs, scan.best);
    if (from <= scan.limit) break;
  }
  return scan.rides();
}
