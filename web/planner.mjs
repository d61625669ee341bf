// A planner over published pages of connections, for browsers and for node from 18 on. planner.d.ts says what each export is, README.md how to use
// it, and docs/PROTOCOL.md what it follows.
import { BadQuestion } from './planner/errors.mjs';
import { Session } from './planner/session.mjs';

export { PageMap } from './planner/cache.mjs';
export { pages, stops } from './planner/reading.mjs';
export { BadQuestion, NoSuchStop, NotAPage, NotFound, NotKept, OutOfWindow, PlannerError, Unreachable } from './planner/errors.mjs';

/** The session of a question to one publisher or several, which ends with its use. */
function begin(partners, question) {
  return new Session(
    partners.map((partner) => ({ known: question.known, ...partner })),
    question,
  );
}

async function answerOf(partners, question) {
  const session = begin(partners, { ...question, until: undefined });
  try {
    await session.open();
    return { versions: session.versions, ...(await session.answer()) };
  } finally {
    session.close();
  }
}

async function* answersOf(partners, question) {
  if (question.until === undefined) throw new BadQuestion('a profile has a moment until');
  const session = begin(partners, question);
  try {
    await session.open();
    for await (const answer of session.answers()) yield { versions: session.versions, ...answer };
  } finally {
    session.close();
  }
}

/** An answer of one publisher. */
function single({ versions: [version], ...answer }) {
  return { version, ...answer };
}

/** Plans a journey. */
export async function plan(question) {
  return single(await answerOf([question], question));
}

/** All best journeys of a span, one after the other. */
export async function* profile(question) {
  for await (const answer of answersOf([question], question)) yield single(answer);
}

/** Plans a journey over several publishers at once. */
export const planMany = answerOf;

/** All best journeys of a span over several publishers at once. */
export const profileMany = answersOf;
