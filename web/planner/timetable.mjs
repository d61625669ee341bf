// The connections of one publisher, or of several together, as far as their pages were read. A timetable grows in one direction: to later
// departures, or back to earlier ones.
import { NotAPage } from './errors.mjs';

/** The test of docs/PROTOCOL.md that the first page fails as the one for a moment, if it fails it. */
export function testGate(page, moment) {
  const isLate = page.previous !== null && moment < page.departs;
  const isEarly = page.next !== null && page.next.departs <= moment;
  if (isLate || isEarly) throw new NotAPage(`the time gate leads to ${page.url}, and another page is for the moment`, { url: page.url, test: 'gate' });
}

/** That a page leads back, `later` being the page read before it, if there is one. */
function testRetreat(page, later) {
  const isLevel = page.previous !== null && page.departs <= page.previous.departs;
  if (isLevel || (later && page.last >= later.departs)) throw new NotAPage(`${page.url} does not lead back`, { url: page.url, test: 'retreat' });
}

/** The same page with other ids of stops. Linear in the page. */
function renamed(page, stop) {
  if (!stop) return page;
  const connections = page.connections.map((connection) => ({ ...connection, from: stop(connection.from), to: stop(connection.to) }));
  return { ...page, connections };
}

/** The pages of one publisher in their order, from the one for a moment on or back. */
class Line {
  #partner;
  #isBack;
  #mayHelp;
  #ahead;
  #asked = []; // the pages ahead that came or are on their way
  #isAsking = false;
  #newest; // of the pages that came, the one that was asked for last
  /** The page that was taken last. */
  page = null;
  /** What of the pages taken is not handed on yet, in order. */
  left = [];

  /** `mayHelp` says of a page whether one beyond it may be needed, as far as is known. */
  constructor(partner, isBack, ahead, mayHelp) {
    this.#partner = partner;
    this.#isBack = isBack;
    this.#ahead = ahead;
    this.#mayHelp = mayHelp;
  }

  async begin(moment) {
    const page = await this.#partner.publisher.first(moment);
    testGate(page, moment);
    this.#newest = page;
    this.#take(page);
  }

  /** Takes the page beyond. There is one. */
  async goOn() {
    if (this.#asked.length === 0) this.#ask();
    this.#take(await this.#asked.shift());
  }

  get hasMore() {
    return this.#beyond(this.page) !== null;
  }

  #beyond(page) {
    return this.#isBack ? page.previous : page.next;
  }

  #take(page) {
    if (this.#isBack) testRetreat(page, this.page);
    this.page = page;
    const { connections } = renamed(page, this.#partner.stop);
    if (this.left.length === 0) this.left = connections;
    else this.left = this.#isBack ? [...connections, ...this.left] : [...this.left, ...connections];
    this.#goAhead();
  }

  #ask() {
    this.#isAsking = true;
    const page = this.#partner.publisher.page(this.#beyond(this.#newest)).then((came) => {
      this.#isAsking = false;
      this.#newest = came;
      this.#goAhead();
      return came;
    });
    page.catch(() => {}); // Who takes the page has the error, if anybody does.
    this.#asked.push(page);
  }

  #goAhead() {
    if (this.#isAsking || this.#asked.length >= this.#ahead) return;
    if (this.#beyond(this.#newest) !== null && this.#mayHelp(this.#newest)) this.#ask();
  }

  /** Hands on what departs by a moment. */
  takeUntil(moment) {
    const [taken, left] = cut(this.left, ({ departs }) => departs > moment);
    this.left = left;
    return taken;
  }

  /** Hands on what departs from a moment on. */
  takeFrom(moment) {
    const [left, taken] = cut(this.left, ({ departs }) => departs >= moment);
    this.left = left;
    return taken;
  }
}

/** A list in two: before the first member for which a test holds, and from it on. One publisher's list is mostly not cut at all. */
function cut(list, test) {
  const at = list.findIndex(test);
  if (at < 0) return [list, []];
  return at === 0 ? [[], list] : [list.slice(0, at), list.slice(at)];
}

/** Lists in order as one list in order. */
function merged(lists) {
  const filled = lists.filter((list) => list.length > 0);
  return filled.length < 2 ? (filled[0] ?? []) : filled.flat().sort((one, other) => one.departs - other.departs);
}

const least = (values) => Math.min(Infinity, ...values);
const greatest = (values) => Math.max(-Infinity, ...values);

/**
 * Lists of connections, one after the other in the order of departures. Each is `{ from, until, connections }`: all that depart between the two
 * moments, both included. Where pages are read on, `until` is the last departure read, and where they are read back `from` is the first one.
 */
export class Timetable {
  #wire;
  #lines;
  lists = [];

  /** Partners are `{ publisher, stop }`. `limit` is the moment beyond which departures are not needed; who searches moves it. */
  constructor(partners, isBack, limit, wire) {
    this.isBack = isBack;
    this.limit = limit;
    this.#wire = wire;
    const mayHelp = (page) => (isBack ? page.departs > this.limit : page.last < this.limit);
    this.#lines = partners.map((partner) => new Line(partner, isBack, wire.ahead, mayHelp));
  }

  /** Asks each publisher for its page for the moment. */
  async begin(moment) {
    await Promise.all(this.#lines.map((line) => line.begin(moment)));
    this.#wire.pages += this.#lines.length;
  }

  get versions() {
    return this.#lines.map((line) => line.page.version);
  }

  /** Reads on, or back. It says whether there was anything left to read. */
  async grow() {
    return this.isBack ? this.#growBack() : this.#growOn();
  }

  async #goOn(lines) {
    await Promise.all(lines.map((line) => line.goOn()));
    this.#wire.pages += lines.length;
  }

  async #growOn() {
    const before = this.lists.at(-1);
    if (before) await this.#goOn(this.#lines.filter((line) => line.hasMore && line.page.last <= before.until));
    if (before?.until === Infinity) return false;
    const from = before ? before.until + 1 : greatest(this.#lines.filter(({ page }) => page.previous).map(({ page }) => page.departs));
    const until = least(this.#lines.filter((line) => line.hasMore).map(({ page }) => page.last));
    this.lists.push({ from, until, connections: merged(this.#lines.map((line) => line.takeUntil(until))) });
    return true;
  }

  async #growBack() {
    const after = this.lists[0];
    if (after) await this.#goOn(this.#lines.filter((line) => line.hasMore && line.page.departs >= after.from));
    if (after?.from === -Infinity) return false;
    const from = greatest(this.#lines.filter((line) => line.hasMore).map(({ page }) => page.departs));
    const until = after ? after.from - 1 : least(this.#lines.filter(({ page }) => page.next).map(({ page }) => page.next.departs - 1));
    this.lists.unshift({ from, until, connections: merged(this.#lines.map((line) => line.takeFrom(from))) });
    return true;
  }

  /** The lists of connections that have what departs between two moments. */
  between(first, last) {
    return this.lists.filter(({ from, until }) => from <= last && until >= first).map(({ connections }) => connections);
  }

  /** The first departure of all that were read, and the last one; null where there is none. */
  get edges() {
    const filled = this.lists.filter(({ connections }) => connections.length > 0);
    return filled.length === 0 ? null : { first: filled[0].connections[0].departs, last: filled.at(-1).connections.at(-1).departs };
  }
}
