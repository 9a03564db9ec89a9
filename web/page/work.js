// What is under way: one thing at a time. What was begun later is shown in its place.
import { $ } from './dom.js';

export class Work {
  constructor() {
    this.isBusy = false;
    this.turn = 0;
    this.ticks = null;
    this.changed = () => {};
    this.failed = async () => {};
  }

  setBusy(is) {
    this.isBusy = is;
    clearInterval(this.ticks);
    $('stop').textContent = 'Stop';
    if (is) this.ticks = setInterval(countsFrom(performance.now()), 500);
    document.body.classList.toggle('busy', is);
    this.changed();
  }

  /** Does something that asks the worker. */
  async run(does) {
    const turn = ++this.turn;
    this.setBusy(true);
    try {
      await does();
    } catch (fault) {
      if (turn === this.turn) await this.failed(fault);
    }
    if (turn === this.turn) this.setBusy(false);
  }

  /** Ends what runs, since something else is wanted; false where yet another thing was wanted meanwhile. */
  async isFree(end) {
    if (!this.isBusy) return true;
    const turn = ++this.turn;
    await end();
    return turn === this.turn;
  }
}

/** Tells the seconds since a moment on the button that stops. */
const countsFrom = (start) => () => {
  const seconds = Math.floor((performance.now() - start) / 1000);
  if (seconds) $('stop').textContent = `Stop (${seconds} s)`;
};
