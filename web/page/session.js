// The page's side of the worker: asks it, and ends it where a call is to stop.

const say = (bytes) => new TextDecoder().decode(bytes);

/** The program refused: a status from 2 on, and its line. */
export class Refused extends Error {
  constructor(status, line) {
    super(line);
    this.status = status;
  }
}

/** The worker was ended while it was asked. */
export class Stopped extends Error {}

/** The program trapped, which it never does by its proof: the translation or the browser is at fault. */
export class Trapped extends Error {}

export class Session {
  /** @param {string} text the worker's program @param {Uint8Array} program surf.wasm */
  constructor(text, program) {
    this.place = URL.createObjectURL(new Blob([text], { type: 'text/javascript' }));
    this.program = program;
    this.waits = new Map();
    this.asked = 0;
    this.opened = null;
  }

  /** Starts a worker, in place of the one that may be there, and gives it the mesh again. */
  async start() {
    this.end(new Stopped('stopped'));
    const worker = this.worker = new Worker(this.place);
    worker.onmessage = ({ data }) => this.settle(data);
    worker.onerror = (event) => this.end(new Trapped(event.message || 'the worker failed'));
    const said = await this.ask('load', { program: this.program });
    if (this.opened) {
      await this.give(this.opened.file);
      for (const how of this.opened.mends) await this.ask('mend', { how });
    }
    return said;
  }

  end(fault) {
    if (this.worker) this.worker.terminate();
    const waits = [...this.waits.values()];
    this.waits.clear();
    for (const { reject } of waits) reject(fault);
  }

  settle({ id, said, fault, isTrap }) {
    const wait = this.waits.get(id);
    if (!wait) return;
    this.waits.delete(id);
    if (fault !== undefined) wait.reject(isTrap ? new Trapped(fault) : new Error(fault));
    else if (said.status > 1) wait.reject(new Refused(said.status, say(said.text).trim()));
    else wait.resolve(said);
  }

  /**
   * Asks the worker to do something; the answer is what it says, or Refused, Stopped or another Error. The buffers in
   * `moved` become the worker's.
   */
  ask(what, given = {}, moved = []) {
    return new Promise((resolve, reject) => {
      const id = ++this.asked;
      this.waits.set(id, { resolve, reject });
      this.worker.postMessage({ ...given, id, what }, moved);
    });
  }

  /** Gives the worker a file. It is read here, since in WebKit the worker of a page from disk can't read a Blob. */
  async give({ name, blob }) {
    const { worker } = this, data = new Uint8Array(await blob.arrayBuffer());
    if (worker !== this.worker) throw new Stopped('stopped');
    return this.ask('open', { name, data }, [data.buffer]);
  }

  async open(file) {
    this.opened = null;
    const shape = await this.give(file);
    this.opened = { file, mends: [] };
    return shape;
  }

  async mend(how) {
    const shape = await this.ask('mend', { how });
    this.opened.mends.push(how);
    return shape;
  }

  /** Takes off the handles that are shorter than so many units. What is left takes the file's place, by this name. */
  async takeOff(limit, lengths, name) {
    const shape = await this.ask('takeOff', { limit, lengths });
    this.opened = { file: { name, blob: new Blob([shape.text]) }, mends: [] };
    return shape;
  }

  /** A call of the program; its text as a string, too. */
  async call(words, files, more = {}) {
    const said = await this.ask('call', { words, files, ...more });
    return { ...said, string: more.isLong ? '' : say(said.text) };
  }
}
