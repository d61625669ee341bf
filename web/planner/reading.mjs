// Documents for their own sake: the stops, and the pages of a span.
import { connectionOf } from './journey.mjs';
import { Publisher } from './publisher.mjs';
import { readPartner, readSpan } from './question.mjs';
import { testGate } from './timetable.mjs';
import { Wire } from './wire.mjs';

function openPublisher(question) {
  const { base, known, names } = readPartner(question);
  const wire = new Wire(question);
  return { wire, names, publisher: new Publisher(base, known, wire) };
}

/** The stops document. */
export async function stops(question) {
  const { publisher, wire } = openPublisher(question);
  const document = await publisher.stops();
  wire.check();
  return document;
}

/** The connections of a span, page after page. */
export async function* pages(question) {
  const { publisher, wire, names } = openPublisher(question);
  const { since, until } = readSpan(question);
  let page = await publisher.first(since);
  testGate(page, since);
  for (;;) {
    wire.pages += 1;
    wire.report({ reached: Number.isFinite(page.last) ? new Date(page.last * 1000) : null });
    const within = page.connections.filter(({ departs }) => departs >= since && departs <= until);
    yield { url: page.url, version: new Date(page.version * 1000), connections: within.map((connection) => connectionOf(connection, names)) };
    if (page.next === null || page.last >= until) return;
    page = await publisher.page(page.next);
  }
}
