// The page of delays: the runs of a line on a day, as they were known at each version. delays/ has its parts.

import { showFault } from './app/alert.mjs';
import { byId, element } from './app/dom.mjs';
import { explained } from './app/faults.mjs';
import { VersionSlider } from './app/slider.mjs';
import { start } from './app/start.mjs';
import { words } from './app/words.mjs';
import { Work } from './app/work.mjs';
import { daysOf, firstMoment, metresBetween } from './app/world.mjs';
import { clock, momentOf } from './app/zone.mjs';
import { csvOf, rowsOf } from './delays/csv.mjs';
import { Frames } from './delays/frames.mjs';
import { LineForm, lineAddress, lineOf } from './delays/line_form.mjs';
import { Picture } from './delays/picture.mjs';
import { runTable } from './delays/run_table.mjs';
import { delayOf, isWithin, knownTimes, placesOf, plannedTimes, towards } from './delays/runs.mjs';

const HOUR = 3_600_000; // Milliseconds.
const MARGIN = HOUR / 2; // before and after the span: runs that a delay takes into it, or out of it, are read too
const BEAT = 700; // Milliseconds a frame is shown at least while playing.

/** The versions that say something of a span: the last one before it, those within it, and those of the hour after it. */
function versionsAbout(versions, since, until) {
  const before = versions.filter((version) => version < since).slice(-1);
  return [...before, ...versions.filter((version) => version >= since && version.getTime() <= until.getTime() + HOUR)];
}

class DelayPage {
  #world;
  #store;
  #day = null;
  #form = new LineForm();
  #picture = new Picture(byId('picture'));
  #slider = new VersionSlider((known) => this.#slide(known));
  #work = new Work(() => {});
  #shown = null; // what is shown: `{ line, headsign, frames, versions, since, until }`
  #frame = null;
  #run = null; // the name of the chosen run
  #known = null;
  #isPlaying = false;

  constructor(world, store) {
    this.#world = world;
    this.#store = store;
    byId('question').addEventListener('submit', (event) => {
      event.preventDefault();
      this.#submit();
    });
    byId('date').addEventListener('change', () => this.#loadDay(this.#form.question));
    byId('play').addEventListener('click', () => (this.#isPlaying ? this.#pause() : this.#play()));
    byId('run').addEventListener('change', () => this.#choose(byId('run').value));
    byId('csv').addEventListener('click', () => this.#download());
    const picture = byId('picture');
    picture.addEventListener('pointermove', (event) => this.#point(event));
    picture.addEventListener('click', (event) => this.#point(event));
    picture.addEventListener('keydown', (event) => this.#press(event));
    addEventListener('resize', () => this.#draw());
    addEventListener('popstate', () => this.open(location.href));
    const { first, last } = daysOf(world.publishers);
    byId('date').min = first;
    byId('date').max = last;
    byId('zone').textContent = words.zone(world.zone.replaceAll('_', ' '));
    const { legend } = words;
    byId('legend').replaceChildren(...Object.keys(legend).map((key) => element('li', { class: `key ${key}` }, legend[key])));
  }

  /** Shows the question of an address, and the picture if it names a line. */
  async open(address) {
    const question = lineOf(address);
    this.#form.setTime(question, firstMoment(this.#world));
    this.#known = question.known;
    if ((await this.#loadDay(question)) && question.line) await this.#show();
  }

  async #loadDay({ line, towards: headsign }) {
    this.#pause();
    showFault(null);
    const isRead = await this.#work.do(
      async (signal) => {
        this.#day = await this.#world.at(byId('date').value, signal);
        if (this.#form.offer(this.#day, line, headsign) > 0) return true;
        this.#explain('noLines');
        return false;
      },
      (error) => this.#fail(error),
    );
    return isRead === true;
  }

  async #submit() {
    const { date, begin, end } = this.#form.question;
    byId('when-fault').textContent = date && begin && end && begin < end ? '' : words.faults.span;
    if (byId('when-fault').textContent !== '' || !(await this.#loadDay(this.#form.question))) return;
    this.#known = null;
    this.#remember('pushState');
    await this.#show();
  }

  #remember(how) {
    history[how](null, '', lineAddress({ ...this.#form.question, known: this.#known }, location.href));
  }

  /** Shows the chosen line: the newest version, or the one that is asked for. */
  async #show() {
    const { date, begin, end, towards: headsign } = this.#form.question;
    const { zone, stops } = this.#day;
    const line = this.#form.line;
    const [since, until] = [momentOf(date, begin, zone), momentOf(date, end, zone)];
    const placeOf = (stop) => stops.get(stop)?.parent ?? stop;
    const { base, names, versions } = line.partner;
    const question = { base, names, route: line.route, since: new Date(since - MARGIN), until: new Date(until.getTime() + MARGIN), placeOf };
    this.#shown = { line, headsign, since, until, versions: versionsAbout(versions, since, until), frames: new Frames(question, this.#store) };
    this.#run = null;
    byId('results-title').textContent = line.label;
    document.title = `${line.label} – ${words.delays}`;
    this.#slider.show(this.#shown.versions, this.#known, zone, date);
    await this.#showFrame();
  }

  /** The version that the slider shows. */
  get #version() {
    const { versions } = this.#shown;
    return this.#slider.known ?? versions.at(-1) ?? new Date();
  }

  #slide(known) {
    this.#pause();
    this.#known = known;
    this.#remember('replaceState');
    this.#showFrame();
  }

  /** Reads the frame of the slider's version, if it was not read, and draws it. It gives whether it could. */
  async #showFrame() {
    const { frames, versions } = this.#shown;
    const version = this.#version;
    showFault(null);
    const isDrawn = await this.#work.do(
      async (signal, say) => {
        // The timetable is that of the first version: what later ones cancel is seen against it.
        if (versions.length > 0) await frames.at(versions[0], signal, say);
        this.#frame = await frames.at(version, signal, say);
        this.#draw();
        return true;
      },
      (error) => this.#fail(error),
    );
    return isDrawn === true;
  }

  /** Draws the frame anew, in the width that the page has. */
  #draw() {
    if (!this.#frame || !this.#shown) return;
    const { headsign, frames, since, until } = this.#shown;
    const those = (list, timesOf) => towards(list, headsign).filter((run) => isWithin(run, timesOf, since, until));
    const runs = those(this.#frame.runs, knownTimes);
    const timetable = those(frames.timetable, plannedTimes);
    byId('found').hidden = timetable.length === 0;
    if (timetable.length === 0) return this.#explain('noRuns');
    const begun = performance.now();
    const there = new Set(this.#frame.runs.map(({ run }) => run));
    const cancelled = timetable.filter(({ run }) => !there.has(run));
    this.#picture.set({ ...this.#places(timetable), since: since.getTime(), until: until.getTime(), zone: this.#day.zone, planned: timetable });
    this.#picture.show({ version: this.#frame.version, runs }, cancelled);
    performance.measure('picture', { start: begun, detail: runs.length });
    this.#describe(runs, cancelled);
  }

  /** The places of the line with their names, and the metres between each and the next. */
  #places(runs) {
    const { stops } = this.#day;
    const places = placesOf(runs);
    const metres = places.slice(1).map((place, index) => metresBetween(stops.get(places[index]) ?? {}, stops.get(place) ?? {}));
    return { places, metres, nameOf: (place) => stops.nameOf(place) };
  }

  #describe(runs, cancelled) {
    const { line, frames } = this.#shown;
    const count = words.runs(runs.length);
    byId('status').textContent = cancelled.length > 0 ? `${count}, ${words.cancelledRuns(cancelled.length)}` : count;
    byId('picture').setAttribute('aria-label', words.pictureOf(line.label, count));
    byId('csv-help').textContent = words.csvHelp(rowsOf(frames.read));
    const options = runs.map(({ run, trip, headsign, calls }) => new Option(`${clock(plannedTimes(calls[0])[1], this.#day.zone)} ${words.run(trip, headsign)}`, run));
    byId('run').replaceChildren(new Option(words.noRunChosen, ''), ...options);
    this.#choose(runs.some(({ run }) => run === this.#run) ? this.#run : '');
  }

  /** Marks a run by its name; none with an empty text. */
  #choose(name) {
    this.#run = name || null;
    byId('run').value = name;
    this.#picture.choose(name);
    const run = this.#frame.runs.find((other) => other.run === name);
    byId('run-table').replaceChildren(run ? runTable(run, (stop) => this.#day.stops.nameOf(stop), this.#day.zone) : '');
    byId('note').textContent = run ? words.runSaid(words.run(run.trip, run.headsign), words.seconds(Math.max(...run.calls.map(delayOf)))) : '';
  }

  #point({ clientX, clientY }) {
    const name = this.#picture.runAt(clientX, clientY);
    if (name && name !== this.#run) this.#choose(name);
  }

  /** Arrow keys go from run to run, in the order in which they begin. */
  #press(event) {
    const step = { ArrowRight: 1, ArrowDown: 1, ArrowLeft: -1, ArrowUp: -1 }[event.key];
    if (!step) return;
    event.preventDefault();
    const select = byId('run');
    const count = select.options.length;
    const place = Math.max(1, select.selectedIndex + step);
    this.#choose(select.options[Math.min(place, count - 1)].value);
  }

  /** Goes through the versions, from the first one if the last one is shown. */
  async #play() {
    this.#isPlaying = true;
    byId('play').textContent = words.pause;
    if (this.#slider.known === null) this.#slider.go(0);
    while (this.#isPlaying) {
      const [drawn] = await Promise.all([this.#showFrame(), new Promise((done) => setTimeout(done, BEAT))]);
      if (!drawn || !this.#isPlaying || !this.#slider.next()) break;
    }
    if (this.#isPlaying) this.#known = this.#slider.known;
    this.#pause();
  }

  #pause() {
    this.#isPlaying = false;
    byId('play').textContent = words.play;
  }

  #download() {
    const { frames, headsign, line } = this.#shown;
    const those = frames.read.map(({ version, runs }) => ({ version, runs: towards(runs, headsign) }));
    const text = csvOf(those, (stop) => this.#day.stops.nameOf(stop));
    const url = URL.createObjectURL(new Blob([text], { type: 'text/csv' }));
    element('a', { href: url, download: `${line.key.replaceAll('/', '-')}-${byId('date').value}.csv` }).click();
    URL.revokeObjectURL(url);
  }

  #explain(key) {
    const [title, advice] = words.faults[key];
    showFault({ title, advice: advice() });
  }

  #fail(error) {
    this.#pause();
    byId('status').textContent = '';
    showFault(explained(error), { again: () => this.open(location.href), useNewest: () => this.#newest() });
  }

  #newest() {
    this.#known = null;
    this.#remember('replaceState');
    this.open(location.href);
  }
}

await start('delays', (world, store) => new DelayPage(world, store).open(location.href));
