// surf.wasm as a function: words and files in, a status and a text out.

/** There was no memory for what a call is given or says. */
class NoMemory extends Error {}

/** What is said then, as the program says it where it has none itself. */
export const wantOfMemory = () => ({ status: 11, text: new TextEncoder().encode('memory\n') });

export class Program {
  /** @param {WebAssembly.Exports} exported */
  constructor(exported) {
    this.exported = exported;
  }

  /** @param {BufferSource} bytes surf.wasm */
  static async load(bytes) {
    return new Program((await WebAssembly.instantiate(bytes, {})).instance.exports);
  }

  get bytes() {
    return new Uint8Array(this.exported.memory.buffer);
  }

  get memory() {
    return this.exported.memory.buffer.byteLength;
  }

  take(size) {
    const at = this.exported.surf_take(BigInt(size || 1));
    if (!at) throw new NoMemory();
    return at;
  }

  /**
   * Does what `surf` does with the words, which name the files by 1, 2 and 3. Where the text is longer than the room,
   * its size is told and the call is made again, so a good guess of the room saves time.
   * @param {string} words
   * @param {Uint8Array[]} files
   * @returns {{status: number, text: Uint8Array}}
   */
  call(words, files, room = 1 << 20) {
    const { surf_call, surf_give } = this.exported, empty = new Uint8Array(0), taken = [];
    const keep = (size) => taken[taken.push(this.take(size)) - 1];
    const given = [new TextEncoder().encode(words), ...[0, 1, 2].map((k) => files[k] || empty)];
    try {
      const lent = given.map((slice) => {
        const at = keep(slice.length);
        this.bytes.set(slice, Number(at));
        return [at, BigInt(slice.length)];
      });
      const said = keep(16);
      for (;;) {
        const at = this.take(room);
        surf_call(said, ...lent.flat(), at, BigInt(room));
        const answer = this.answerAt(Number(said), Number(at), room);
        surf_give(at);
        if (answer.text) return answer;
        room = answer.size;
      }
    } catch (fault) {
      if (fault instanceof NoMemory) return wantOfMemory();
      throw fault;
    } finally {
      for (const at of taken) surf_give(at);
    }
  }

  answerAt(said, at, room) {
    const view = new DataView(this.exported.memory.buffer, said, 16), size = Number(view.getBigUint64(0, true));
    const text = size <= room ? this.bytes.slice(at, at + size) : null;
    return { size, status: view.getUint8(8), text };
  }
}
