/**
 * A planner over published pages of connections, for browsers and for node from 18 on. It depends on nothing but `fetch`.
 *
 * Moments are Dates, and count in whole seconds. Durations and delays are seconds. Stops, trips and routes are the ids of the feed, as they are
 * in it. What counts as a journey, and as a best one, is in docs/PROTOCOL.md, "A client of one's own".
 */

/** How documents are asked for, and what is kept of them. Each member may be left out. */
export interface Wire {
  /** Ends the work: the promise is rejected with the signal's reason, and no request stays open. */
  signal?: AbortSignal;
  /**
   * Where pages are kept, since a page of a version never changes. The default is one `PageMap` that all questions of this module share. `null`
   * keeps nothing. A store of texts, or a `Cache` of the browser's Cache Storage, has a `PageMap` of its own before it.
   */
  cache?: PageMap | TextStore | Cache | null;
  /** What sends a request, as `fetch` does, which is the default. */
  fetch?: typeof fetch;
  /** The longest wait for one document, in milliseconds. The default is 30,000. */
  timeout?: number;
  /**
   * How many pages may be on their way before they are known to be needed, 0 to 4. The default is 0, which asks for exactly the pages that the
   * answer needs. More hides the time that reading a page takes, and may ask for pages that turn out not to be needed.
   */
  ahead?: number;
  /** Is called after each page, and where a page could not be kept. What it throws rejects the promise. */
  progress?: (state: Progress) => void;
}

/** How far a question has come. */
export interface Progress {
  /** How many pages were looked at, kept ones too. */
  pages: number;
  /** How many requests were made. */
  requests: number;
  /** Up to which departure the timetable was looked at, or from which one on with `arrive`. */
  reached: Date | null;
  /** The best arrival so far, or with `arrive` the latest leaving; null where no journey is found yet. */
  best: Date | null;
  /** Why a page could not be kept, if one could not. The question goes on. */
  notKept?: NotKept;
}

/** Where from and to, and within how long. */
export interface Ends {
  /** The stop where the journey begins. It may also begin at a stop whose parent this is, or with a walk by one change. */
  from: string;
  /** The stop where it ends, likewise. */
  to: string;
  /** Seconds within which the journey has to arrive, or with `arrive` to leave: 1 to 604,800 (a week). The default is 86,400 (a day). */
  horizon?: number;
  /** Of the best journeys one with the fewest rides. It is never a later arrival for fewer rides. */
  fewest?: boolean;
}

/** One of the two moments, and not both. */
export type Moment =
  | { /** When one may leave: the journey arrives as early as any. */ leave: Date; arrive?: undefined }
  | { /** When one has to be there: the journey leaves as late as any. */ arrive: Date; leave?: undefined };

/** A publisher of pages. */
export interface Publisher {
  /** The URL under which it publishes, with a slash at the end. A page of a browser may give it from its own address on, as `/tiny/`. */
  base: string;
  /** Plans by the timetable as it was known then: sent as `Accept-Datetime`. The default is the newest version. */
  known?: Date;
  /** What the pages leave out, as `names.json` of the publisher has it: fills `route` of rides. */
  names?: Names;
}

export type Question = Publisher & Ends & Moment & Wire;

/**
 * Plans a journey.
 *
 * @throws {BadQuestion} the question is none: two moments, a horizon out of range, one stop as both ends
 * @throws {NoSuchStop} the publisher has no such stop
 * @throws {OutOfWindow} the publisher has no departure in the time that the question is about
 * @throws {NotFound} the publisher has no such document: a base of none, or a version that it has no longer
 * @throws {Unreachable} the publisher does not answer, not in time, or with an error of its own
 * @throws {NotAPage} a reply is not what docs/PROTOCOL.md says: `test` is the test that it fails
 * @throws the reason of `signal`, where that ended the work
 */
export function plan(question: Question): Promise<Plan>;

/**
 * All best journeys of a span, one after the other: none leaves later and arrives as early, or arrives earlier and leaves as late. With `leave`
 * they leave from then to `until`, the earliest first, and arrive within the horizon after `until`. With `arrive` they arrive from then back to
 * `until`, the latest first, and leave within the horizon before `until`. It reads pages as journeys are asked for, and asks for nothing more once
 * it is left. All are of one version. A journey takes two scans of the connections between its ends. Errors are those of `plan`.
 */
export function profile(question: Question & { until: Date }): AsyncGenerator<Plan & { journey: Journey }, void, void>;

/** One of several publishers, whose stops may have other ids than those of the question. */
export interface Partner extends Publisher {
  /** The id of a stop in the question and in the answer, by its id at the publisher. The default is that both are one. */
  stop?: (id: string) => string;
}

/** Which stops of several publishers are one, beside those with one id. */
export interface Nearness {
  /** Two stops of two publishers at most so many metres apart have a change between them. Coordinates are those of `names`. */
  metres: number;
  /** Metres a second on the way from one to the other. The default is 1. */
  pace?: number;
  /** The least seconds of such a change. The default is 120. */
  least?: number;
}

/** A question to several publishers. What `known` says is of those that say nothing else. */
export type QuestionOfMany = Ends & Moment & Wire & { known?: Date; near?: Nearness };

/**
 * Plans a journey over several publishers at once. Stops with one id, after `stop` of each partner, are one. Where two publishers list a
 * change between two stops, the shorter one counts. Errors are those of `plan`, each with the `base` that it is about.
 */
export function planMany(partners: Partner[], question: QuestionOfMany): Promise<PlanOfMany>;

/** All best journeys of a span over several publishers at once, as `profile` has them of one. */
export function profileMany(
  partners: Partner[],
  question: QuestionOfMany & { until: Date },
): AsyncGenerator<PlanOfMany & { journey: Journey }, void, void>;

/** The stops of a publisher and the changes between them, from the cache that `plan` uses. Errors are those of `plan`. */
export function stops(question: Pick<Publisher, 'base'> & Wire): Promise<Stops>;

export interface Stops {
  readonly stops: readonly Readonly<{ id: string; /** Empty where the feed has none. */ name: string; parent?: string }>[];
  readonly changes: readonly Readonly<{ from: string; to: string; seconds: number }>[];
}

/**
 * The connections that depart from one moment to another, both included, page after page, for who draws or counts them. It reads a page when it is
 * asked for. Errors are those of `plan`; a span without a departure is none.
 */
export function pages(question: Publisher & Wire & { since: Date; until: Date }): AsyncGenerator<Page, void, void>;

export interface Page {
  /** The page's URL, which names its content for ever. */
  url: string;
  version: Date;
  /** In the order of departures. */
  connections: Connection[];
}

/** The way of a vehicle from one stop to its next. */
export interface Connection {
  run: string;
  trip: string;
  date: string;
  start: string | null;
  route: string | null;
  sequence: number;
  from: string;
  to: string;
  departs: Date;
  arrives: Date;
  departureDelay: number;
  arrivalDelay: number;
  /** Whether one may board at `from`, and alight at `to`. */
  boards: boolean;
  alights: boolean;
}

/** An answer. */
export interface Plan {
  /** The version of the timetable by which it was planned. */
  version: Date;
  /** A best journey, or null where there is none within the horizon. */
  journey: Journey | null;
  /** How many pages were looked at, kept ones too. */
  pages: number;
  /** How many requests were made. A redirect that a browser follows on its own counts as one more. */
  requests: number;
}

export interface PlanOfMany extends Omit<Plan, 'version'> {
  /** The version of each publisher, in the order of the partners. */
  versions: Date[];
}

export interface Journey {
  /** When one leaves: the first ride's departure, less the walk before it. */
  departs: Date;
  /** When one is there: the last ride's arrival, and the walk after it. */
  arrives: Date;
  /** In their order: a walk perhaps, then rides with a change between each two, then a walk perhaps. */
  legs: Leg[];
}

export type Leg = Ride | Walk;

/** In one vehicle. */
export interface Ride {
  kind: 'ride';
  /** The base of the publisher that has it. */
  base: string;
  /** The name of the vehicle's journey: the trip encoded, the date and the start, as `T1/20240501/-`. */
  run: string;
  trip: string;
  /** The service date, as `20240501`. */
  date: string;
  /** When a trip with a headway starts, as `083000`; null for a trip without. */
  start: string | null;
  /** The route's id, by `names`; null where that is not known. */
  route: string | null;
  from: string;
  to: string;
  /** Delays included. */
  departs: Date;
  arrives: Date;
  /** Seconds against the schedule: above 0 is late. */
  departureDelay: number;
  arrivalDelay: number;
  /** Where the vehicle stops on the way, with the two ends. */
  calls: Call[];
}

/** A vehicle at a stop, on a ride. */
export interface Call {
  stop: string;
  /** null at the first call of the ride. */
  arrives: Date | null;
  arrivalDelay: number | null;
  /** null at the last call of the ride. */
  departs: Date | null;
  departureDelay: number | null;
  /** The `stop_sequence` at which the vehicle departs; null at the last call of the ride. */
  sequence: number | null;
}

/** From one stop to another, or at one: before the first ride, after the last one, or between two. */
export interface Walk {
  kind: 'walk' | 'change';
  from: string;
  to: string;
  seconds: number;
}

/** What a `names.json` says, as far as a planner reads it. */
export interface Names {
  stops?: Record<string, { lat?: number; lon?: number }>;
  trips?: Record<string, { route?: string }>;
}

/** Pages in memory, those that were used last. */
export class PageMap {
  /** @param most how many connections it keeps at most, in all its pages. The default is 250,000, some 70 MB. */
  constructor(most?: number);
  /** Forgets all pages. */
  clear(): void;
}

/** Keeps texts by URLs. Both may answer later, by a promise. Where `get` fails the page is asked for; where `put` fails it is not kept. */
export interface TextStore {
  get(url: string): string | undefined | null | Promise<string | undefined | null>;
  put(url: string, text: string): unknown;
}

/** What all errors of this module are. `message` is a sentence in English, and `cause` is what lies beneath, if anything does. */
export class PlannerError extends Error {
  /** The document or the base that it is about, or null. */
  url: string | null;
}

/** The publisher has no such document (404 or 410). */
export class NotFound extends PlannerError {
  status: number;
  /** Of a page: the version that the publisher has no longer. Else null: then the base is none. */
  version: Date | null;
}

/** There is no reply: no connection, no answer in time, or a status of 429 or 500 and above. A later try may succeed. */
export class Unreachable extends PlannerError {
  status: number | null;
}

/** A reply is no page, no stops document, or no redirect to a page. */
export class NotAPage extends PlannerError {
  /** The test of docs/PROTOCOL.md, "What a client tests": `status 403`, `location`, `body`, `identity`, `advance`, `gate` or `retreat`. */
  test: string;
}

/** The publisher has no stop of this id. */
export class NoSuchStop extends PlannerError {
  stop: string;
  /** Which end of the question it is. */
  end: 'from' | 'to';
}

/** The publisher has no departure in the time of the question: its window is another one. */
export class OutOfWindow extends PlannerError {
  /** Whether the question is about a time before the publisher's first departure, or after its last one. */
  side: 'before' | 'after';
  /** That departure; null where the publisher has none at all. */
  edge: Date | null;
}

/** The question is none. */
export class BadQuestion extends PlannerError {}

/** A page could not be kept, as in a full cache. It comes to `progress` alone. */
export class NotKept extends PlannerError {}
