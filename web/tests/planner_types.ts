// What an app writes, in types: tsc checks it under the name of the package, and it is not run.
import { NoSuchStop, PageMap, Unreachable, plan, planMany, profile, profileMany, pages, stops } from 'monteneem-planner';
import type { Journey, Leg, Names, Plan } from 'monteneem-planner';

const base = 'https://lc.example/tiny/';
const names: Names = await (await fetch(`${base}names.json`)).json();

function describe(leg: Leg): string {
  if (leg.kind === 'ride') return `${leg.route ?? leg.trip} ${leg.departs.toISOString()} ${leg.departureDelay} ${leg.calls.length}`;
  return `${leg.kind} of ${leg.seconds} seconds`;
}

const answer: Plan = await plan({ base, names, from: 'A', to: 'D', leave: new Date(), horizon: 3600, fewest: true, ahead: 1, cache: new PageMap(1000) });
const journey: Journey | null = answer.journey;
console.log(journey?.legs.map(describe), answer.version, answer.pages, answer.requests);

for await (const { journey: one } of profile({ base, from: 'A', to: 'D', arrive: new Date(), until: new Date(0) })) console.log(one.departs, one.arrives);

const many = await planMany([{ base }, { base, stop: (id) => `x:${id}` }], { from: 'A', to: 'D', leave: new Date(), known: new Date(), near: { metres: 100 } });
console.log(many.versions.length, many.journey?.legs.length);
for await (const one of profileMany([{ base }], { from: 'A', to: 'D', leave: new Date(), until: new Date() })) console.log(one.journey.legs.length);

for await (const page of pages({ base, since: new Date(), until: new Date(), cache: await caches.open('pages') })) console.log(page.connections[0]?.departureDelay);
const document = await stops({ base, cache: { get: (url) => localStorage.getItem(url), put: (url: string, text: string) => localStorage.setItem(url, text) } });
console.log(document.stops.find(({ id }) => id === 'A')?.name);

try {
  await plan({ base, from: 'A', to: 'D', arrive: new Date(), signal: new AbortController().signal, progress: ({ best, notKept }) => console.log(best, notKept?.message) });
} catch (error) {
  if (error instanceof NoSuchStop) console.log(error.end, error.stop);
  if (error instanceof Unreachable) console.log(error.status, error.url, error.cause);
}

// @ts-expect-error A question has one of the two moments.
await plan({ base, from: 'A', to: 'D' });
// @ts-expect-error Moments are Dates.
await plan({ base, from: 'A', to: 'D', leave: '2024-05-01T08:00:00Z' });
