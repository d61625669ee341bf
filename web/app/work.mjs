// Work that takes a while: one at a time, which the reader may stop.

import { byId } from './dom.mjs';

const PATIENCE = 700; // Milliseconds after which a page says how far it is.

/** Why work ends that gives way to other work: nobody is to hear of it. */
const GIVEN_UP = new DOMException('other work has begun', 'OperationCanceledError');

export class Work {
  #controller = new AbortController();
  #timer = 0;

  /** @param busy is called with whether there is work */
  constructor(busy) {
    this.busy = busy;
    byId('stop').addEventListener('click', () => this.#controller.abort());
  }

  /** Ends what is under way without a word. */
  giveUp() {
    this.#controller.abort(GIVEN_UP);
    this.#end();
  }

  #end() {
    clearTimeout(this.#timer);
    byId('working').hidden = true;
    byId('progress').textContent = '';
    this.busy(false);
  }

  /**
   * Does some work in the place of what was under way. It gives what the work gives. `failed` is called with the error that ends it, unless other
   * work has taken its place.
   *
   * @param what is called with a signal, and with a function that says how far it is
   */
  async do(what, failed) {
    this.giveUp();
    const own = new AbortController();
    this.#controller = own;
    this.#timer = setTimeout(() => (byId('working').hidden = false), PATIENCE);
    this.busy(true);
    const say = (text) => own === this.#controller && (byId('progress').textContent = text);
    try {
      return await what(own.signal, say);
    } catch (error) {
      if (own === this.#controller && error !== GIVEN_UP) failed(error);
      return undefined;
    } finally {
      if (own === this.#controller) this.#end();
    }
  }
}
