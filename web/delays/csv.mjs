// The delays as a table of comma-separated values (RFC 4180).

const COLUMNS = ['version', 'run', 'trip', 'headsign', 'stop', 'stop_name', 'timetable_arrival', 'known_arrival', 'arrival_delay', 'timetable_departure', 'known_departure', 'departure_delay'];

function field(value) {
  const text = String(value ?? '');
  return /[",\r\n]/.test(text) ? `"${text.replaceAll('"', '""')}"` : text;
}

function moment(milliseconds) {
  return milliseconds === null ? '' : new Date(milliseconds).toISOString().replace('.000', '');
}

function planned(milliseconds, delay) {
  return milliseconds === null ? null : milliseconds - delay * 1000;
}

/** One row for each call of each run of each frame, under a row of names. Moments are in UTC, and delays in seconds. */
export function csvOf(frames, nameOf) {
  const lines = [COLUMNS.join(',')];
  for (const { version, runs } of frames) {
    for (const { run, trip, headsign, calls } of runs) {
      for (const { stop, arrives, arrivalDelay, departs, departureDelay } of calls) {
        const times = [moment(planned(arrives, arrivalDelay)), moment(arrives), arrivalDelay, moment(planned(departs, departureDelay)), moment(departs), departureDelay];
        lines.push([moment(version.getTime()), run, trip, headsign, stop, nameOf(stop), ...times].map(field).join(','));
      }
    }
  }
  return `${lines.join('\r\n')}\r\n`;
}

/** How many rows `csvOf` has under its first one. */
export function rowsOf(frames) {
  return frames.reduce((sum, { runs }) => sum + runs.reduce((count, { calls }) => count + calls.length, 0), 0);
}
