// The list of journeys: a line for each, and below it the rides, changes and walks.

import { badgeColours } from './colours.mjs';
import { drawing, element, spoken } from './dom.mjs';
import { words } from './words.mjs';
import { clock, minutesBetween } from './zone.mjs';

const MINUTE = 60_000;

/** What a ride is called: its route, its colours, where it goes, by the names of its publisher. */
export function rideNames(day, ride) {
  const names = day.names.get(ride.base);
  const trip = names?.trips[ride.trip];
  const route = names?.routes[ride.route ?? trip?.route];
  const kind = words.kinds[route?.type] ?? words.kinds.other;
  return { label: route?.short || route?.long || ride.route || ride.trip, kind, headsign: trip?.headsign ?? '', colours: badgeColours(route) };
}

/** A route in its colours. */
export function badge({ label, kind, colours }) {
  const node = element('span', { class: 'badge' }, spoken(`${kind} `), label);
  node.style.setProperty('--ground', colours.ground);
  node.style.setProperty('--text', colours.text);
  return node;
}

function rides(journey) {
  return journey.legs.filter((leg) => leg.kind === 'ride');
}

/** How late a moment is by a delay, in minutes as the clock shows them. */
function shownDelay(moment, delay) {
  return minutesBetween(moment.getTime() - delay * 1000, moment.getTime());
}

/** A delay in red where it is late, in green where it is early; nothing where the clock shows the time of the timetable. */
function delayMark(moment, delay) {
  const minutes = shownDelay(moment, delay ?? 0);
  if (minutes === 0) return null;
  const text = minutes > 0 ? words.late(minutes) : words.early(-minutes);
  const shown = element('span', { 'aria-hidden': 'true' }, `${minutes > 0 ? '+' : '−'}${Math.abs(minutes)}`);
  return element('span', { class: minutes > 0 ? 'delay late' : 'delay early', title: text }, shown, spoken(` ${text} `));
}

function timeText(moment, zone) {
  return element('time', { datetime: moment.toISOString() }, clock(moment, zone));
}

function lengthText(milliseconds) {
  return words.minutes(Math.max(1, Math.round(milliseconds / MINUTE)));
}

function secondsText(seconds) {
  return lengthText(seconds * 1000);
}

/** The times at both ends of a journey, with the delays of its first and last ride. */
function endTimes(journey, zone) {
  const own = rides(journey);
  return element(
    'span',
    { class: 'times' },
    spoken(`${words.departs} `),
    timeText(journey.departs, zone),
    delayMark(journey.departs, own[0]?.departureDelay),
    element('span', { class: 'arrow', 'aria-hidden': 'true' }, '→'),
    spoken(`, ${words.arrives} `),
    timeText(journey.arrives, zone),
    delayMark(journey.arrives, own.at(-1)?.arrivalDelay),
  );
}

function facts(journey) {
  const count = rides(journey).length;
  return `${lengthText(journey.arrives - journey.departs)} · ${count === 0 ? words.onlyWalk : words.changes(count - 1)}`;
}

function routeChain(day, journey) {
  const badges = rides(journey).map((ride) => badge(rideNames(day, ride)));
  const parts = badges.flatMap((node, place) => (place === 0 ? [node] : [element('span', { class: 'then', 'aria-hidden': 'true' }, '›'), node]));
  return element('span', { class: 'chain' }, parts);
}

function platformText(day, stop) {
  const name = day.stops.get(stop)?.platform;
  return name ? element('span', { class: 'platform' }, words.platform(name)) : null;
}

/** A stop on a ride: its time, what the timetable says, its name and platform. */
function call(day, { stop, moment, delay }) {
  const isOff = shownDelay(moment, delay) !== 0;
  const planned = new Date(moment.getTime() - delay * 1000);
  return element(
    'div',
    { class: 'call' },
    element(
      'span',
      { class: 'call-time' },
      timeText(moment, day.zone),
      delayMark(moment, delay),
      isOff && spoken(`, ${words.planned(clock(planned, day.zone))}`),
      isOff && element('s', { 'aria-hidden': 'true' }, clock(planned, day.zone)),
    ),
    element('span', { class: 'dot', 'aria-hidden': 'true' }),
    element('span', { class: 'call-stop' }, element('strong', {}, day.stops.nameOf(stop)), platformText(day, stop)),
  );
}

/** The stops between the two ends of a ride. */
function between(day, ride) {
  const inner = ride.calls.slice(1, -1);
  const text = words.rides(ride.calls.length - 1, lengthText(ride.arrives - ride.departs));
  if (inner.length === 0) return element('p', { class: 'note' }, text);
  const rows = inner.map(({ stop, departs, departureDelay }) =>
    element('li', {}, timeText(departs, day.zone), delayMark(departs, departureDelay), ` ${day.stops.nameOf(stop)}`),
  );
  return element('details', {}, element('summary', {}, text), element('ul', { class: 'inner' }, rows));
}

function rideItem(day, ride) {
  const names = rideNames(day, ride);
  const item = element(
    'li',
    { class: 'ride' },
    call(day, { stop: ride.from, moment: ride.departs, delay: ride.departureDelay }),
    element('div', { class: 'on' }, element('p', { class: 'vehicle' }, badge(names), names.headsign && element('span', {}, words.towards(names.headsign))), between(day, ride)),
    call(day, { stop: ride.to, moment: ride.arrives, delay: ride.arrivalDelay }),
  );
  item.style.setProperty('--route', names.colours.ground);
  return item;
}

/** A walk or a change; `wait` is what is left until the next ride, in seconds. */
function walkItem(day, leg, wait) {
  const isElsewhere = day.stops.nameOf(leg.from) !== day.stops.nameOf(leg.to);
  const seconds = secondsText(leg.seconds);
  const text = isElsewhere ? words.walkTo(seconds, day.stops.nameOf(leg.to)) : leg.kind === 'change' ? words.change(seconds, wait > 59 ? secondsText(wait) : '') : words.walk(seconds);
  return element('li', { class: leg.kind }, walker(), text);
}

function walker() {
  return drawing('svg', { viewBox: '0 0 16 16', width: 16, height: 16, 'aria-hidden': 'true', class: 'icon' }, drawing('path', { d: 'M9 1.6a1.3 1.3 0 1 1 0 2.6 1.3 1.3 0 0 1 0-2.6M8.2 5 6 6.5 5 9M8.2 5l.3 4-2.5 5M8.5 9l2.2 2 .5 3M8.2 5l1.6 2 2.2.6' }));
}

/** The legs of a journey, in their order. */
export function legList(day, journey) {
  const items = journey.legs.map((leg, place) => {
    if (leg.kind === 'ride') return rideItem(day, leg);
    const [before, after] = [journey.legs[place - 1], journey.legs[place + 1]];
    const wait = before && after ? (after.departs - before.arrives) / 1000 - leg.seconds : 0;
    return walkItem(day, leg, wait);
  });
  return element('ol', { class: 'legs' }, items);
}

/**
 * An entry of the list: a button that opens and closes the legs.
 *
 * @param chosen is called when the entry is opened
 */
export function journeyItem(day, journey, { id, isOpen, chosen }) {
  const body = element('div', { id, class: 'body', hidden: !isOpen }, legList(day, journey));
  const button = element(
    'button',
    { type: 'button', class: 'summary', 'aria-expanded': String(isOpen), 'aria-controls': id },
    endTimes(journey, day.zone),
    element('span', { class: 'facts' }, facts(journey)),
    routeChain(day, journey),
  );
  button.addEventListener('click', () => chosen(button.getAttribute('aria-expanded') !== 'true'));
  return element('li', { class: isOpen ? 'journey open' : 'journey' }, element('h3', {}, button), body);
}
