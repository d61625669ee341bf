#!/usr/bin/env node
// Plans a journey over published pages: a command over web/planner.mjs, which shares no code with `lc`. It needs Node.js 18 or later.
//
//   node planner.mjs BASE FROM TO MOMENT [HORIZON]
//
// BASE ends with a slash, and FROM and TO are ids of stops. MOMENT is in UTC, as 2024-05-01T08:00:00Z. HORIZON is in seconds, 86400 if it is not
// given. It prints the best arrival, or `no journey`, then the walks and rides as `lc ask` does, and how many pages it took.
import { OutOfWindow, PlannerError, plan } from '../web/planner.mjs';
import { encodeId } from '../web/planner/texts.mjs';

/** A publisher without a proxy serves one connection after the other: so each ends with its reply. */
function closingFetch(url, options) {
  return fetch(url, { ...options, headers: { ...options.headers, Connection: 'close' } });
}

/** A leg as a line of `lc ask`, which has none for a change between two rides. */
function lineOf(leg) {
  const [from, to] = [leg.from, leg.to].map(encodeId);
  if (leg.kind === 'walk') return [`walk ${from} ${to} ${leg.seconds}`];
  if (leg.kind === 'change') return [];
  const [first, last] = [leg.calls[0], leg.calls.at(-2)];
  const run = leg.run.replaceAll('/', ' ');
  return [`ride ${run} ${first.sequence} ${last.sequence} ${from} ${leg.departs.toISOString()} ${to} ${leg.arrives.toISOString()}`];
}

/** The lines of an answer. */
function linesOf({ journey, pages }) {
  if (!journey) return ['no journey', `pages ${pages}`];
  return [`arrives ${journey.arrives.toISOString()}`, ...journey.legs.flatMap(lineOf), `pages ${pages}`];
}

/** Plans by the words of the command. */
async function answer([base, from, to, moment, horizon = '86400']) {
  try {
    return linesOf(await plan({ base, from, to, leave: new Date(moment), horizon: Number(horizon), fetch: closingFetch }));
  } catch (error) {
    if (error instanceof OutOfWindow) return ['no journey', error.message];
    throw error;
  }
}

const words = process.argv.slice(2);
if (words.length < 4 || words.length > 5) {
  console.error('planner.mjs BASE FROM TO MOMENT [HORIZON]');
  process.exit(2);
}
try {
  console.log((await answer(words)).join('\n'));
} catch (error) {
  if (!(error instanceof PlannerError)) throw error;
  console.error(`planner.mjs: ${error.message}`);
  process.exitCode = 1;
}
