// What went wrong, in words that say what to do.

import { BadQuestion, NoSuchStop, NotAPage, NotFound, OutOfWindow, Unreachable } from '../planner.mjs';
import { Unread } from './documents.mjs';
import { words } from './words.mjs';
import { OutsideWindows } from './world.mjs';
import { dayInWords } from './zone.mjs';

function dayText(date) {
  return dayInWords(new Date(`${date}T12:00:00Z`), 'UTC', words.locale);
}

/** The key of a text in `faults`, what that text is about, and what button helps: `again`, `useNewest` or none. */
function kindOf(error, stopName) {
  if (error instanceof OutsideWindows) return { key: 'outside', about: [dayText(error.first), dayText(error.last)] };
  if (error instanceof OutOfWindow) return { key: 'beyond', about: [] };
  if (error instanceof NoSuchStop) return { key: 'noStop', about: [stopName(error.stop)] };
  if (error instanceof NotFound) {
    return error.version ? { key: 'noVersion', about: [], button: 'useNewest' } : { key: 'missing', about: [error.url], button: 'again' };
  }
  if (error instanceof NotAPage) return { key: 'lying', about: [error.test], button: 'again' };
  if (error instanceof Unreachable) {
    if (error.status) return { key: 'failing', about: [error.status], button: 'again' };
    return { key: error.cause?.name === 'AbortError' || error.cause?.name === 'TimeoutError' ? 'slow' : 'down', about: [], button: 'again' };
  }
  if (error instanceof Unread) {
    if (error.isCatalog) return { key: 'noCatalog', about: [error.url], button: 'again' };
    if (error.status === null) return { key: error.cause?.name === 'TimeoutError' ? 'slow' : 'down', about: [], button: 'again' };
    if (error.status === 200) return { key: 'lying', about: ['body'], button: 'again' };
    return { key: 'failing', about: [error.status], button: 'again' };
  }
  if (error?.name === 'AbortError') return { key: 'stopped', about: [], button: 'again' };
  if (error instanceof BadQuestion) return { key: 'unknown', about: [error.message] };
  return { key: 'unknown', about: [error?.message ?? String(error)], button: 'again' };
}

/**
 * An error as a traveller reads it: what it is, what to do, which document it is about, and which button helps.
 *
 * @param stopName the name of a stop by its id
 */
export function explained(error, stopName = (id) => id) {
  const { key, about, button = null } = kindOf(error, stopName);
  const [title, advice] = words.faults[key];
  return { key, title, advice: advice(...about), url: error?.url ?? null, button };
}
