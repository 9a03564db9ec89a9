// The worker: it keeps the mesh and the files that calls name, and calls the program, so that the page stays alive.
import { Lines } from './lines.js';
import { isWantOfMemory, kindOf, readMesh } from './readers.js';
import { merged, offOf, tidy } from './mend.js';
import { closedForHub, hubOf, lengthsWithHub, unitsWithHub, withoutHub } from './holes.js';
import { MENDS } from './mends.js';
import { shapeOf } from './shape.js';
import { readOpened } from './opened.js';
import { MOST_UNFOLDED, unfold } from './unfold.js';
import { Surgery, takeOff } from './surgery.js';
import { Cycles } from './cycles.js';
import { Program, wantOfMemory } from './program.js';

const encoder = new TextEncoder();
const state = { program: null, kind: '', mesh: null, opened: null, files: new Map() };

function setMesh(mesh, text) {
  state.mesh = mesh;
  state.opened = null;
  state.files.clear();
  state.files.set('mesh', text || offOf(mesh));
}

const countsOf = ({ points, starts }) => ({ vertices: points.length / 3, faces: starts.length - 1 });

/** A call of the program. `keep` is the name of a file that its answer becomes, which is told where it isn't silent. */
function call({ words, files, keep, isSilent }) {
  const start = performance.now(), slices = files.map((name) => state.files.get(name));
  const isLong = /^(cut|lengths|dist|certify)/.test(words), size = state.files.get('mesh')?.length || 0;
  const { status, text } = state.program.call(words, slices, isLong ? Math.max(1 << 20, 2 * size) : 1 << 20);
  if (keep && status <= 1) state.files.set(keep, text);
  const told = keep && status <= 1 ? text.slice(0, isSilent ? 0 : text.length) : text;
  return { status, text: told, ms: performance.now() - start, memory: state.program.memory };
}

class Refused extends Error {
  constructor(said) {
    super('refused');
    this.said = said;
  }
}

/** What the program says to words and files; where it refuses that is thrown. */
function asked(words, files) {
  const said = state.program.call(words, files);
  if (said.status > 1) throw new Refused(said);
  return said.text;
}

/** What a task answers, or what the program said where it refused. */
function orRefused(task) {
  try {
    return task();
  } catch (fault) {
    if (fault instanceof Refused) return fault.said;
    throw fault;
  }
}

/** The vertices of a shortest way from u to v, without u. */
function wayTo(u, v, lengths) {
  const said = call({ words: `dist 1 ${lengths} ${u}`, files: ['mesh', 'lengths'] });
  if (said.status > 1) throw new Refused(said);
  const lines = new Lines(said.text), above = new Int32Array(state.mesh.points.length / 3).fill(-1), way = [];
  while (lines.next()) above[lines.number(0)] = lines.word(2) === '-' ? -1 : lines.number(2);
  for (let at = v; at >= 0 && at !== u; at = above[at]) way.push(at);
  return way.reverse();
}

const does = {
  /** Loads the program, makes the browser compile what is called most, and says whether it cuts through vertices. */
  async load({ program }) {
    state.program = await Program.load(program);
    state.program.call('try chain 2 5 5 3', []);
    return { cutsThrough: state.program.call('cut 1 unit 0 through 1', []).status !== 2 };
  },

  /** Opens a file. An OFF goes to the program as it stands, so that lines which it names are those of the file. */
  open({ name, data }) {
    const kind = kindOf(name, data), mesh = readMesh(kind, data);
    state.kind = kind;
    if (kind === 'off') setMesh(mesh, data);
    else setMesh(tidy(kind === 'stl' ? merged(mesh) : mesh));
    return { kind, ...shapeOf(state.mesh) };
  },

  /** Mends the mesh, without its hub. A mended OFF is written anew, so its names are kept from here on. */
  mend({ how }) {
    const given = withoutHub(state.mesh), { mesh, ...more } = MENDS[how](given, state.files.get('mesh'));
    if (!mesh.corners.length) throw new Error('nothing of the mesh is left');
    setMesh(mesh);
    const before = countsOf(given), after = countsOf(mesh);
    return { kind: state.kind, ...shapeOf(withoutHub(mesh)), hub: hubOf(mesh), before, after, ...more };
  },

  call,

  /**
   * Measures the edges, in units of 10^-decimals, or each as 1 without decimals. They become the file `lengths`. A hub's
   * are the longest there are.
   */
  measure({ decimals }) {
    const { mesh, files } = state, keep = { keep: 'lengths', isSilent: true };
    if (decimals === null) {
      files.set('lengths', unitsWithHub(mesh.hub));
      return {};
    }
    files.set('measured', mesh.hub ? offOf(closedForHub(mesh)) : files.get('mesh'));
    const said = call({ words: `lengths 1 ${decimals}`, files: ['measured'], ...keep });
    if (mesh.hub && said.status <= 1) files.set('lengths', lengthsWithHub(files.get('lengths'), mesh.hub));
    return said;
  },

  /** A file of the page's, for the next call. */
  file({ name, text }) {
    state.files.set(name, encoder.encode(text));
    return {};
  },

  /** The closed walk through these vertices, from each to the next by a shortest way; it becomes the file `walk`. */
  walk({ vertices, lengths }) {
    return orRefused(() => {
      const walk = [vertices[0]];
      vertices.forEach((u, k) => {
        const v = vertices[(k + 1) % vertices.length];
        if (u !== v) for (const w of wayTo(u, v, lengths)) walk.push(w);
      });
      state.files.set('walk', encoder.encode(`${walk.join(' ')}\n`));
      return { walk: Uint32Array.from(walk) };
    });
  },

  /**
   * Takes off the handles that are shorter than so many units; old edges stay as long as they are. Answers what is
   * left, its text, and what went.
   */
  takeOff({ limit, lengths }) {
    return orRefused(() => {
      const cycles = new Cycles(asked, lengths === 'unit' ? null : state.files.get('lengths'));
      const surgery = new Surgery(state.mesh), done = takeOff(surgery, cycles, limit), kept = cycles.lengthsOf(surgery);
      setMesh(surgery.mesh(surgery.partedPoints()));
      if (kept) state.files.set('lengths', kept);
      return { kind: state.kind, ...shapeOf(state.mesh), ...done, text: state.files.get('mesh').slice() };
    });
  },

  /** Reads the cut that stands in the file `cut`. */
  opened() {
    state.opened = readOpened(state.files.get('cut'));
    const { edges, origins, round } = state.opened, copies = origins.length;
    return { edges: edges.slice(), copies, border: round.length, isFlat: copies <= MOST_UNFOLDED };
  },

  unfold() {
    return { ...unfold(state.opened), round: state.opened.round.slice() };
  },
};

async function answer({ id, what, ...given }) {
  let said;
  try {
    said = { id, said: await does[what](given) };
  } catch (fault) {
    const isTrap = fault instanceof WebAssembly.RuntimeError, words = fault.message || String(fault);
    said = isWantOfMemory(fault) ? { id, said: wantOfMemory() } : { id, fault: words, isTrap };
  }
  const lists = Object.values(said.said || {}).filter((it) => ArrayBuffer.isView(it));
  postMessage(said, [...new Set(lists.map((list) => list.buffer))]);
}

// One after the other, also where an answer is waited for.
let last = Promise.resolve();
onmessage = ({ data }) => {
  last = last.then(() => answer(data));
};
