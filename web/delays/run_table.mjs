// One run as a table: its delay at each stop.

import { element } from '../app/dom.mjs';
import { words } from '../app/words.mjs';
import { clockWithSeconds } from '../app/zone.mjs';
import { delayOf, knownTimes, lateness, plannedTimes } from './runs.mjs';

/** The moment at which a call ends: the departure, or the arrival at the last stop. */
function last([, moment]) {
  return moment;
}

/** The table of a run. */
export function runTable(run, nameOf, zone) {
  const rows = run.calls.map((call) => {
    const delay = delayOf(call);
    return element(
      'tr',
      {},
      element('th', { scope: 'row' }, nameOf(call.stop)),
      element('td', {}, clockWithSeconds(last(plannedTimes(call)), zone)),
      element('td', {}, clockWithSeconds(last(knownTimes(call)), zone)),
      element('td', { class: delay < 0 ? 'early' : lateness(delay) === 'good' ? null : 'late' }, words.seconds(delay)),
    );
  });
  const heads = [words.stopColumn, words.plannedColumn, words.knownColumn, words.delayColumn].map((text) => element('th', { scope: 'col' }, text));
  return element('table', {}, element('caption', {}, words.run(run.trip, run.headsign)), element('thead', {}, element('tr', {}, heads)), element('tbody', {}, rows));
}
