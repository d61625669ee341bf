// One publisher, as a question sees it: the time gate, the stops document, and pages.
import { readPage, readStops } from './documents.mjs';
import { NotAPage, errorOfStatus } from './errors.mjs';
import { momentText, readPageUrl } from './texts.mjs';

/** A browser follows a redirect on its own, or says that there was one and hides where it leads. */
function hidesRedirects() {
  return 'document' in globalThis || 'WorkerGlobalScope' in globalThis;
}

/** Gives up the body of a reply. Nobody waits for it, so that a failure of it is none. */
function giveUp(reply) {
  reply.body?.cancel().catch(() => {});
}

function leadsNowhere(url, target) {
  return new NotAPage(`the time gate ${url} leads to no page under its base but to ${target}`, { url, test: 'location' });
}

export class Publisher {
  #wire;
  #known;

  /** `base` as `readBase` gives it, and `known` in seconds, or undefined. */
  constructor(base, known, wire) {
    this.base = base;
    this.#known = known;
    this.#wire = wire;
  }

  /** The page for a moment, at the version that the time gate names. */
  async first(moment) {
    const url = `${this.base}connections?departureTime=${momentText(moment)}`;
    const headers = this.#known === undefined ? {} : { 'Accept-Datetime': new Date(this.#known * 1000).toUTCString() };
    if (hidesRedirects()) return this.#keep(await this.#wire.get(url, { headers, redirect: 'follow' }, (reply) => this.#followed(url, reply)));
    return this.page(await this.#wire.get(url, { headers }, (reply) => this.#named(url, reply)));
  }

  /** The name of the page to which a reply redirects. */
  #named(url, reply) {
    giveUp(reply);
    if (reply.status !== 302) throw errorOfStatus(reply.status, url);
    const location = reply.headers.get('Location');
    let target = null;
    try {
      target = new URL(location, url).href;
    } catch {
      // No reference: it leads nowhere, as below.
    }
    const name = location === null ? null : readPageUrl(this.base, target);
    if (!name) throw leadsNowhere(url, location);
    return name;
  }

  /** The page to which a browser followed the redirect on its own. What comes of a page that is kept is not read. */
  async #followed(url, reply) {
    if (reply.redirected) this.#wire.requests += 1;
    const name = readPageUrl(this.base, reply.url);
    if (!reply.ok) throw errorOfStatus(reply.status, reply.url, name?.version);
    if (!name) throw leadsNowhere(url, reply.url);
    const page = await this.#kept(name);
    if (!page) return this.#read(name, reply);
    giveUp(reply);
    return { page, text: null };
  }

  /** The page of a name. */
  async page(name) {
    return (await this.#kept(name)) ?? this.#keep(await this.#wire.get(name.url, {}, (reply) => this.#read(name, reply)));
  }

  /** Keeps a page that was read from a text, and gives it. */
  async #keep({ page, text }) {
    const notKept = text === null ? null : await this.#wire.kept.putPage(page.url, page, text);
    if (notKept) this.#wire.report({ notKept });
    return page;
  }

  #kept(name) {
    return this.#wire.kept.page(name.url, (text) => readPage(this.base, name, text));
  }

  async #read(name, reply) {
    if (reply.status !== 200) throw errorOfStatus(reply.status, name.url, name.version);
    const text = await reply.text();
    return { page: readPage(this.base, name, text, reply.headers.get('Memento-Datetime')), text };
  }

  async stops() {
    const url = `${this.base}stops`;
    return this.#wire.kept.stops(url) ?? this.#wire.get(url, {}, (reply) => this.#readStops(url, reply));
  }

  async #readStops(url, reply) {
    if (reply.status !== 200) throw errorOfStatus(reply.status, url);
    const document = readStops(url, await reply.text());
    this.#wire.kept.putStops(url, document);
    return document;
  }
}
