// One question from its beginning to its answer: what is asked of publishers, what is searched, what is handed out.
import { BadQuestion, NoSuchStop, OutOfWindow } from './errors.mjs';
import { journeyOf, spanOf } from './journey.mjs';
import { changesNear } from './near.mjs';
import { joinedNetwork, networkOf } from './network.mjs';
import { Publisher } from './publisher.mjs';
import { readPartner, readQuestion } from './question.mjs';
import { fewestRides } from './scan.mjs';
import { earliest, latest } from './search.mjs';
import { momentText } from './texts.mjs';
import { Timetable } from './timetable.mjs';
import { Wire } from './wire.mjs';

const dateOf = (seconds) => (Number.isFinite(seconds) ? new Date(seconds * 1000) : null);

/** A stops document with other ids. */
function renamedStops({ stops, changes }, stop) {
  return {
    stops: stops.map(({ id, name, parent }) => ({ id: stop(id), name, parent: parent === undefined ? undefined : stop(parent) })),
    changes: changes.map(({ from, to, seconds }) => ({ from: stop(from), to: stop(to), seconds })),
  };
}

/** What to say of a timetable that ends, or begins, with the departure of a moment; NaN where it has none. */
function windowMessage(isAfter, edge) {
  if (Number.isNaN(edge)) return 'the timetable has no departure at all';
  return `the timetable ${isAfter ? 'ends' : 'begins'} with the departure of ${momentText(edge)}`;
}

/** A question under way. */
export class Session {
  #wire;
  #partners;
  #question;
  #near; // changes between stops of several publishers
  #timetable;
  #network;

  constructor(partners, question) {
    if (partners.length === 0) throw new BadQuestion('there is no publisher to ask');
    this.#question = readQuestion(question);
    this.#wire = new Wire(question);
    this.#partners = partners.map((partner) => {
      const read = readPartner(partner);
      return { ...read, publisher: new Publisher(read.base, read.known, this.#wire) };
    });
    this.#near = question.near ? changesNear(this.#partners, question.near) : [];
    const { isBack, moment } = this.#question;
    const query = this.#query(moment);
    this.#timetable = new Timetable(this.#partners, isBack, isBack ? query.leave : query.end, this.#wire);
  }

  /** What is searched where one leaves at a moment, or has to be there. The horizon of a profile counts from the end of its span. */
  #query(moment) {
    const { ends, isBack, horizon, until } = this.#question;
    const bound = until ?? moment;
    return isBack ? { ...ends, leave: bound - horizon, end: moment } : { ...ends, leave: moment, end: bound + horizon };
  }

  /** Asks each publisher for its stops and its first page. */
  async open() {
    const [documents] = await Promise.all([Promise.all(this.#partners.map((partner) => this.#stopsOf(partner))), this.#timetable.begin(this.#question.moment)]);
    this.#network = documents.length === 1 ? networkOf(documents[0]) : joinedNetwork(documents, this.#near);
    const { ends } = this.#question;
    for (const end of ['from', 'to']) {
      if (!this.#network.has(ends[end])) throw new NoSuchStop(ends[end], end, { url: this.#base });
    }
  }

  async #stopsOf({ publisher, stop }) {
    const document = await publisher.stops();
    return stop ? renamedStops(document, stop) : document;
  }

  /** The base, where there is one publisher. */
  get #base() {
    return this.#partners.length === 1 ? this.#partners[0].base : null;
  }

  get versions() {
    return this.#timetable.versions.map(dateOf);
  }

  close() {
    this.#wire.close();
  }

  get #world() {
    const report = (reached, best) => this.#wire.report({ reached: dateOf(reached), best: dateOf(best) });
    return { network: this.#network, timetable: this.#timetable, report };
  }

  #answerOf(query, rides) {
    const names = new Map(this.#partners.map((partner) => [partner.base, partner.names]));
    const journey = rides && journeyOf(this.#network, query, rides, this.#timetable, names);
    return { journey, pages: this.#wire.pages, requests: this.#wire.requests };
  }

  /** The best journey. */
  async answer() {
    const { isBack, moment } = this.#question;
    const query = this.#query(moment);
    const rides = await (isBack ? latest(this.#world, query) : earliest(this.#world, query));
    if (!rides) this.#testWindow(query);
    return this.#answerOf(query, rides && this.#fewest(query, rides));
  }

  /** Of the journeys that are as good as one of these rides, the rides of one with the fewest, if that is asked for. */
  #fewest(query, rides) {
    if (!this.#question.fewest) return rides;
    const span = spanOf(this.#network, query, rides);
    const { isBack } = this.#question;
    // One that leaves as late as any and arrives by the moment is as good, if it is asked from the end.
    const narrow = isBack ? { ...query, leave: span.leaves } : { ...query, end: span.arrives };
    const lists = this.#timetable.between(narrow.leave, narrow.end);
    return fewestRides(this.#network, narrow, lists, narrow.end, rides.length) ?? rides;
  }

  /** That nothing departs in the time of the question. */
  #testWindow({ leave, end }) {
    const { edges, lists } = this.#timetable;
    const [begin, close] = [lists[0].from, lists.at(-1).until];
    const isAfter = close === Infinity && (edges === null || edges.last < leave);
    const isBefore = begin === -Infinity && edges !== null && edges.first > end;
    if (!isAfter && !isBefore) return;
    const edge = edges === null ? NaN : isAfter ? edges.last : edges.first;
    throw new OutOfWindow(windowMessage(isAfter, edge), { url: this.#base, side: isAfter ? 'after' : 'before', edge: dateOf(edge) });
  }

  /** The best journeys of the span, one after the other. */
  async *answers() {
    const { isBack, moment, until } = this.#question;
    for (let at = moment; isBack ? at >= until : at <= until; ) {
      const found = await (isBack ? this.#endingBy(at) : this.#leavingFrom(at));
      if (!found) break;
      const { leaves, arrives } = found.span;
      if (isBack ? arrives < until : leaves > until) break;
      yield this.#answerOf(found.query, found.rides);
      at = isBack ? arrives - 1 : leaves + 1;
    }
  }

  /** Of the journeys that leave at a moment or later and arrive as early as any, one that leaves as late as any. */
  async #leavingFrom(moment) {
    const query = this.#query(moment);
    const first = await earliest(this.#world, query);
    if (!first) return this.#nothing(moment, query);
    const within = { ...query, end: spanOf(this.#network, query, first).arrives };
    return this.#found(within, await latest(this.#world, within));
  }

  /** Of the journeys that arrive by a moment and leave as late as any, one that arrives as early as any. */
  async #endingBy(moment) {
    const query = this.#query(moment);
    const last = await latest(this.#world, query);
    if (!last) return this.#nothing(moment, query);
    const within = { ...query, leave: spanOf(this.#network, query, last).leaves };
    return this.#found(within, await earliest(this.#world, within));
  }

  /** No journey. Where it is the first that was looked for, the window may be another one. */
  #nothing(moment, query) {
    if (moment === this.#question.moment) this.#testWindow(query);
    return null;
  }

  /** A journey of these rides, which is a best one, and as many rides as are asked for. */
  #found(query, rides) {
    const span = spanOf(this.#network, query, rides);
    const narrow = { ...query, leave: span.leaves, end: span.arrives };
    return { query, span, rides: this.#fewest(narrow, rides) };
  }
}
