// What a planner rejects with. Each message is a sentence for people; an app in another language goes by the class.

/** What all errors of the planner are. */
export class PlannerError extends Error {
  constructor(message, { url = null, cause } = {}) {
    super(message, cause === undefined ? undefined : { cause });
    this.name = new.target.name;
    this.url = url;
  }
}

/** The publisher has no such document. */
export class NotFound extends PlannerError {
  constructor(message, { status, version, ...rest }) {
    super(message, rest);
    this.status = status;
    this.version = version;
  }
}

/** There is no reply, or one that says that the publisher cannot answer at the time. */
export class Unreachable extends PlannerError {
  constructor(message, { status = null, ...rest } = {}) {
    super(message, rest);
    this.status = status;
  }
}

/** A reply fails a test of docs/PROTOCOL.md, "What a client tests". */
export class NotAPage extends PlannerError {
  constructor(message, { test, ...rest }) {
    super(`${message} (test: ${test})`, rest);
    this.test = test;
  }
}

/** The publisher has no stop of this id. */
export class NoSuchStop extends PlannerError {
  constructor(stop, end, rest) {
    super(`there is no stop "${stop}"`, rest);
    this.stop = stop;
    this.end = end;
  }
}

/** The publisher has no departure in the time of the question. */
export class OutOfWindow extends PlannerError {
  constructor(message, { side, edge, ...rest }) {
    super(message, rest);
    this.side = side;
    this.edge = edge;
  }
}

/** The question is none. */
export class BadQuestion extends PlannerError {}

/** A page could not be kept. */
export class NotKept extends PlannerError {}

/** The error that a status stands for, where another one was expected. `version` is that of a page, in seconds. */
export function errorOfStatus(status, url, version = null) {
  if (status === 404 || status === 410) {
    const message = version === null ? `there is no document at ${url}` : `the publisher has no longer the version of the page ${url}`;
    return new NotFound(message, { url, status, version: version === null ? null : new Date(version * 1000) });
  }
  if (status === 429 || status >= 500) return new Unreachable(`the publisher cannot answer at the time: status ${status} of ${url}`, { url, status });
  // A browser hides which redirect it was: then the status is 0.
  return new NotAPage(`the publisher answers otherwise than expected at ${url}`, { url, test: `status ${status === 0 ? '3xx' : status}` });
}
