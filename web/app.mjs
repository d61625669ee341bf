// The page of journeys: it asks what the form says, and shows what is found. app/ has its parts, planner.mjs does the planning.

import { showFault } from './app/alert.mjs';
import { StopField } from './app/combobox.mjs';
import { byId } from './app/dom.mjs';
import { explained } from './app/faults.mjs';
import { JourneyList } from './app/list.mjs';
import { JourneyMap } from './app/map.mjs';
import { addressOf, questionOf } from './app/question.mjs';
import { Search } from './app/search.mjs';
import { VersionSlider, versionText } from './app/slider.mjs';
import { start } from './app/start.mjs';
import { words } from './app/words.mjs';
import { Work } from './app/work.mjs';
import { daysOf, firstMoment } from './app/world.mjs';
import { momentOf } from './app/zone.mjs';

class JourneyPage {
  #world;
  #store;
  #day = null;
  #known = null;
  #search = null;
  #from = new StopField('from', () => this.#goOn());
  #to = new StopField('to', () => {});
  #map = new JourneyMap();
  #list = new JourneyList((journey) => this.#map.show(this.#day, journey));
  #slider = new VersionSlider((known) => this.#slide(known));
  #work = new Work((isBusy) => this.#showBusy(isBusy));

  constructor(world, store) {
    this.#world = world;
    this.#store = store;
    byId('question').addEventListener('submit', (event) => {
      event.preventDefault();
      this.#submit();
    });
    byId('swap').addEventListener('click', () => this.#swap());
    byId('date').addEventListener('change', () => this.#loadDay());
    byId('later').addEventListener('click', () => this.#more('later'));
    byId('earlier').addEventListener('click', () => this.#more('earlier'));
    addEventListener('popstate', () => this.open(location.href));
    const { first, last } = daysOf(world.publishers);
    byId('date').min = first;
    byId('date').max = last;
    byId('zone').textContent = words.zone(world.zone.replaceAll('_', ' '));
  }

  /** Shows the question of an address, and asks it if it is whole. */
  async open(address) {
    const question = questionOf(address);
    const start = firstMoment(this.#world);
    byId('date').value = question.date ?? start.date;
    byId('time').value = question.time ?? start.time;
    this.#from.set(question.from);
    this.#to.set(question.to);
    this.#known = question.known;
    for (const radio of document.querySelectorAll('[name=mode]')) radio.checked = radio.value === question.mode;
    if (!(await this.#loadDay())) return;
    if (question.from && question.to) await this.#ask();
    else this.#clear();
  }

  get #question() {
    return {
      from: this.#from.chosen,
      to: this.#to.chosen,
      mode: document.querySelector('[name=mode]:checked').value,
      date: byId('date').value || null,
      time: byId('time').value || null,
      known: this.#known,
    };
  }

  /** Reads what is known of the form's day. It gives whether it could. */
  async #loadDay() {
    showFault(null);
    const isRead = await this.#work.do(
      async (signal) => {
        const day = await this.#world.at(byId('date').value, signal);
        if (day !== this.#day) {
          this.#day = day;
          this.#from.offer(day.stops);
          this.#to.offer(day.stops);
        }
        this.#slider.show(day.versions, this.#known, day.zone, byId('date').value);
        return true;
      },
      (error) => this.#fail(error),
    );
    return isRead === true;
  }

  /** Once it is known where to begin, one says where to go. */
  #goOn() {
    if (this.#to.chosen === null) this.#to.focus();
  }

  #swap() {
    const [from, to] = [this.#from.chosen, this.#to.chosen];
    this.#from.set(to);
    this.#to.set(from);
    if (from && to) this.#submit();
  }

  /** Says what is missing in the form, and goes to the first field that lacks it. It gives whether all is there. */
  #test() {
    const { from, to, date, time } = this.#question;
    const missing = (field, text) => (field.typed === '' ? text : words.faults.unknownStop(field.typed));
    this.#from.complain(from === null ? missing(this.#from, words.faults.chooseFrom) : '');
    if (to === null) this.#to.complain(missing(this.#to, words.faults.chooseTo));
    else this.#to.complain(from === to ? words.faults.sameStop : '');
    byId('when-fault').textContent = date === null || time === null ? words.faults.when : '';
    if (from === null) this.#from.focus();
    else if (to === null || from === to) this.#to.focus();
    else if (date === null) byId('date').focus();
    else if (time === null) byId('time').focus();
    else return true;
    return false;
  }

  async #submit() {
    if (!this.#test()) return;
    const address = addressOf(this.#question, location.href);
    if (address !== location.href) history.pushState(null, '', address);
    if (!(await this.#loadDay())) return;
    const results = byId('results');
    // On a phone the form fills the screen: what is found comes into sight.
    if (results.getBoundingClientRect().top > innerHeight * 0.75) results.scrollIntoView();
    await this.#ask();
  }

  /** Plans anew by what was known at another moment. */
  #slide(known) {
    this.#known = known;
    if (this.#from.chosen === null || this.#to.chosen === null) return;
    history.replaceState(null, '', addressOf(this.#question, location.href));
    this.#ask();
  }

  /** Asks the form's question. What was found before stays until there is something else. */
  async #ask() {
    const { from, to, mode, date, time, known } = this.#question;
    const day = this.#day;
    const search = new Search(day, { from, to, mode, moment: momentOf(date, time, day.zone), known }, this.#store);
    const title = words.title(day.stops.nameOf(from), day.stops.nameOf(to));
    byId('results-title').textContent = title;
    document.title = `${title} – ${words.journeys}`;
    const found = () => {
      const isFirst = search !== this.#search;
      if (isFirst) this.#list.clear();
      this.#search = search;
      this.#list.show(day, search.journeys);
      if (isFirst) this.#list.choose(search.journeys[0]);
    };
    await this.#find((wire) => search.begin(wire, found), () => {
      if (search.journeys.length === 0) this.#none();
      else this.#say(words.journeysFound(search.journeys.length), search);
    });
  }

  async #more(direction) {
    const search = this.#search;
    let count = 0;
    await this.#find(
      async (wire) => (count = await search[direction](wire, () => this.#list.show(this.#day, search.journeys))),
      () => this.#say(words.moreFound(count), search),
    );
  }

  /** Lets `what` look for journeys, and `done` show the end. */
  async #find(what, done) {
    showFault(null);
    byId('status').textContent = words.asking;
    byId('note').textContent = '';
    await this.#work.do(
      async (signal, say) => {
        const progress = ({ pages, notKept }) => {
          say(words.pagesRead(pages));
          if (notKept) byId('note').textContent = words.faults.full;
        };
        await what({ signal, progress });
        done();
      },
      (error) => this.#fail(error),
    );
  }

  #showBusy(isBusy) {
    byId('list').setAttribute('aria-busy', String(isBusy));
    byId('results').classList.toggle('busy', isBusy);
    for (const id of ['earlier', 'later']) byId(id).hidden = this.#list.length === 0;
  }

  #say(count, search) {
    byId('status').textContent = `${count}, ${words.asKnown(versionText(search.version, this.#day.zone, byId('date').value))}`;
  }

  #clear() {
    this.#list.clear();
    byId('status').textContent = '';
    if (this.#day) this.#map.show(this.#day, null);
  }

  #none() {
    this.#clear();
    const [title, advice] = words.faults.noJourney;
    showFault({ title, advice: advice() });
  }

  #fail(error) {
    this.#clear();
    const helps = { again: () => this.open(location.href), useNewest: () => this.#useNewest() };
    showFault(explained(error, (id) => this.#day?.stops.nameOf(id) ?? id), helps);
  }

  #useNewest() {
    this.#known = null;
    history.replaceState(null, '', addressOf(this.#question, location.href));
    this.open(location.href);
  }
}

await start('journeys', (world, store) => new JourneyPage(world, store).open(location.href));
