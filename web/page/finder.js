// Opens meshes, has the program find what is asked for, and shows what it says.
import { decimalsFor, plural } from './units.js';
import { countsWithHoles, offHub, readAnswer, readInfo } from './commands.js';
import { $ } from './dom.js';
import { chosenVertices, command, showFields } from './form.js';
import { clearFault, showFault, showRefusal } from './faults.js';
import { MENDED, vertexCount } from './mended.js';
import { Refused, Stopped, Trapped } from './session.js';
import { edgesOfWalk } from './walks.js';
import { Work } from './work.js';

/** Says what is under way, or how it ended. */
export const tell = (text) => { $('said').textContent = text; };

/** The drawn walk, as a row of the list. */
function drawn(walk) {
  const title = `the closed walk, ${plural(walk.length - 1, 'edge')}`;
  return { edges: edgesOfWalk(walk), vertices: [...walk], isPlain: true, title };
}

export class Finder {
  /** @param {import('./viewer.js').Viewer} viewer @param {import('./session.js').Session} session */
  constructor(viewer, session) {
    this.viewer = viewer;
    this.session = session;
    this.work = new Work();
    this.work.changed = () => this.showButtons();
    this.work.failed = (fault) => this.failed(fault);
    viewer.view.pick = (vertex) => this.pick(vertex);
    /** Is told what is shown: an answer, or nothing. */
    this.shown = () => {};
    /**
     * What is known of the mesh: `measured` are the decimals with which the worker has its lengths, and `text` is the
     * mesh where the page made it.
     */
    this.mesh = { name: '', counts: null, decimals: undefined, measured: undefined, text: null };
    this.forget();
  }

  /** What is told of the hub that joins the holes of the mesh, or nothing. */
  get hub() {
    return this.viewer.shape?.hub;
  }

  /** Forgets the answer, its certificate, and what was said of it. */
  forget() {
    this.answer = this.certificate = null;
    this.done = '';
  }

  // Vertices that were chosen.

  setVertices(list) {
    $('vertices').value = list.join(' ');
    this.showMarks();
  }

  showMarks(more = {}) {
    const chosen = command().asks === 'none' ? [] : chosenVertices();
    this.viewer.mark({ vertices: chosen.filter((v) => v < this.viewer.count), ...more });
  }

  pick(vertex) {
    if (this.work.isBusy) return;
    if (command().asks === 'none') tell(`Vertex ${vertex}`);
    else if (command().asks === 'one') {
      this.setVertices([vertex]);
      this.find();
    } else {
      this.setVertices([...chosenVertices(), vertex]);
      this.clearAnswer();
      tell(`${vertexCount(chosenVertices().length)} chosen. Then press Find`);
    }
  }

  /** Takes back the vertex that was chosen last, or all. */
  takeBack(isAll) {
    this.setVertices(isAll ? [] : chosenVertices().slice(0, -1));
    this.clearAnswer();
  }

  // Commands.

  showFields() {
    showFields();
    this.showMarks();
  }

  /** Finds what another command asks for. */
  takeCommand() {
    this.showFields();
    if (command().asks === 'one' && this.viewer.shape && !chosenVertices().length) this.setVertices([0]);
    if (command().asks === 'many') this.setVertices([]);
    this.find();
  }

  showButtons() {
    const { certify, confirm, mostCertified } = command(), { isBusy } = this.work, isBare = isBusy || !this.answer;
    $('run').disabled = isBusy || !this.viewer.shape;
    $('stop').hidden = !isBusy;
    $('save').hidden = $('picture').hidden = isBare;
    $('save').textContent = command().isCut ? 'Save the cut' : 'Save the answer';
    const canCertify = !this.hub && ((certify && this.viewer.count <= mostCertified) || confirm);
    $('certify').hidden = isBare || !canCertify;
    $('certify').textContent = confirm ? 'Check the evidence' : 'Make a certificate and check it';
    $('save-certificate').hidden = isBusy || !this.certificate;
    $('save-mesh').hidden = isBusy || !this.mesh.text;
    $('handles').disabled = isBusy;
  }

  // What goes wrong.

  clearAnswer() {
    this.forget();
    $('certified').textContent = '';
    clearFault();
    this.viewer.showFacts(this.mesh.counts || []);
    this.viewer.showWalks([]);
    this.viewer.showDisc(null);
    this.showMarks();
    this.shown(null);
    this.showButtons();
  }

  async failed(fault) {
    if (fault instanceof Stopped) {
      tell('Stopped');
      return;
    }
    tell('No answer');
    if (fault instanceof Refused) showRefusal(fault.message, this.viewer, (cure) => this.applyCure(cure));
    else showFault(fault.message);
    if (fault instanceof Trapped) await this.restart(); // the module isn't called again
  }

  async restart() {
    this.mesh.measured = undefined; // a new worker has the mesh alone
    await this.session.start();
  }

  /** Ends what runs, since something else is wanted; false where yet another thing was wanted meanwhile. */
  isFree() {
    return this.work.isFree(async () => {
      try {
        await this.restart();
      } catch (fault) {
        if (!(fault instanceof Stopped)) throw fault;
      }
    });
  }

  async applyCure({ how, lengths }) {
    if (lengths) $('lengths').value = lengths;
    this.showFields();
    if (!how) {
      if (command().asks === 'one' && !chosenVertices().length) this.setVertices([0]);
      this.find();
      return;
    }
    let words = '';
    await this.begin(async () => {
      tell('Mending the mesh');
      const shape = await this.session.mend(how);
      words = MENDED[how](shape);
      this.takeShape(shape);
    });
    if (words) await this.find(words);
  }

  // Opening.

  /** Does something that asks the worker, where what went wrong before is no longer shown. */
  async begin(does) {
    clearFault();
    await this.work.run(does);
  }

  takeShape(shape) {
    Object.assign(this.mesh, { counts: null, measured: undefined, text: null });
    this.viewer.showMesh(shape, this.mesh.name);
    this.setVertices(command().asks === 'one' ? [0] : []);
    this.clearAnswer();
    $('note').textContent = '';
  }

  /** What is to be drawn of a file. */
  async opened(name, blob) {
    try {
      return await this.session.open({ name, blob });
    } catch (fault) {
      if (fault instanceof Refused || fault instanceof Stopped) throw fault;
      throw new Error(`${name} can't be read: ${fault.message}.`);
    }
  }

  /** Opens a file, and finds what is chosen. */
  async open(name, blob) {
    if (!(await this.isFree())) return;
    let isOpen = false;
    this.mesh.counts = null;
    this.viewer.clear();
    await this.begin(async () => {
      this.clearAnswer();
      tell(`Reading ${name}`);
      this.mesh.name = name;
      this.takeShape(await this.opened(name, blob));
      isOpen = true;
    });
    if (isOpen) await this.find();
  }

  // Finding.

  async count() {
    if (this.mesh.counts) return;
    tell('Testing that the mesh is a closed surface');
    const counts = readInfo((await this.session.call('info 1', ['mesh'])).string);
    this.mesh.counts = this.hub ? countsWithHoles(counts, this.hub) : counts;
    this.viewer.showFacts(this.mesh.counts);
  }

  /** Measures the edges where lengths are those in space; answers how the call names the lengths. */
  async measure() {
    const { mesh, hub } = this, isUnit = $('lengths').value === 'unit';
    mesh.decimals = isUnit ? null : decimalsFor(hub ? hub.reach : this.viewer.shape.longest);
    if (isUnit && !hub) return 'unit';
    if (mesh.measured !== mesh.decimals) {
      tell('Measuring the edges');
      await this.session.ask('measure', { decimals: mesh.decimals });
      mesh.measured = mesh.decimals;
    }
    return '2';
  }

  /** The vertices that the command asks for, once each is a number. */
  vertices() {
    const list = command().asks === 'none' ? [] : chosenVertices(), { count } = this.viewer;
    if (list.some(Number.isNaN)) throw new Error('Vertices are whole numbers.');
    const past = list.find((v) => v >= count);
    if (past !== undefined) throw new Refused(7, `base: ${past} of ${count}`);
    return list;
  }

  /** Gives the worker the file of vertices or of the walk that the command names; answers the walk. */
  async prepare(lengths, list) {
    if (command().files.includes('vertices')) {
      await this.session.ask('file', { name: 'vertices', text: `${list.join(' ')}\n` });
    }
    if (!command().isOfWalk) return null;
    tell('Joining the vertices by shortest ways');
    return (await this.session.ask('walk', { vertices: list, lengths })).walk;
  }

  /** Finds what is chosen. `before` is said of what was done to the mesh before. */
  async find(before = '') {
    if (!this.viewer.shape || !(await this.isFree())) return;
    this.clearAnswer();
    if (before) $('note').textContent = before;
    const isAsked = command().asks !== 'none' && !chosenVertices().length;
    await this.begin(() => (isAsked ? this.askForVertices() : this.search()));
  }

  async askForVertices() {
    await this.count();
    tell(command().asks === 'one' ? 'Click a vertex on the mesh' : 'Click vertices on the mesh, then press Find');
  }

  async search() {
    const list = this.vertices(), { step, words, files, isCut, confirm, hasHoles } = command();
    if (this.hub && !hasHoles) throw new Error('This is for closed surfaces: open the file again, and close its holes.');
    await this.count();
    const lengths = await this.measure(), walk = await this.prepare(lengths, list);
    tell(step);
    const keep = isCut ? 'cut' : confirm ? 'evidence' : undefined;
    const said = await this.session.call(words(lengths, list), files, { keep, isLong: isCut });
    this.answer = { bytes: said.text, name: isCut ? 'open.off' : `${$('command').value}.txt`, lengths, list };
    const found = isCut ? await this.openedCut() : this.read(said.string);
    this.show({ ...found, walks: [...(walk ? [drawn(walk)] : []), ...found.walks] }, said.ms);
    if (found.isFlat) await this.showUnfolded();
  }

  /** What an answer says; of a surface with holes, what keeps off the hub. */
  read(text) {
    const { decimals } = this.mesh, name = $('command').value, found = readAnswer(name, text, decimals);
    return this.hub ? offHub(name, found, this.hub, decimals) : found;
  }

  /** Shows what was found, and how many milliseconds the program took. */
  show({ walks, facts, faces = [], text }, ms) {
    const time = `${ms < 10 ? ms.toFixed(1) : Math.round(ms)} ms`;
    this.viewer.showFacts([...this.mesh.counts, ...facts, ['time', time]]);
    this.viewer.showWalks(walks);
    this.showMarks({ faces: [...faces] });
    this.shown({ walks });
    this.done = text;
    tell(`Done: ${text}`);
    this.viewer.describe(`The mesh ${this.mesh.name}, and on it ${text}`);
  }

  async openedCut() {
    const { edges, copies, border, isFlat } = await this.session.ask('opened'), count = edges.length / 2;
    const walks = [{ edges, vertices: [], title: `${plural(count, 'edge')} ${count === 1 ? 'is' : 'are'} cut` }];
    const facts = [['vertices of the disc', copies], ['border', border]];
    return { walks, facts, isFlat, text: `a disc, cut along ${plural(count, 'edge')}` };
  }

  async showUnfolded() {
    tell('Laying the disc in the plane');
    this.viewer.showDisc(await this.session.ask('unfold'));
    tell(`Done: ${this.done}`);
  }

  // Certificates.

  /** Makes a certificate of the answer and has it checked; of a class, has the evidence checked. */
  certify() {
    return this.begin(async () => {
      const said = await (command().confirm ? this.confirmEvidence() : this.checkCertificate());
      $('certified').textContent = `The checker says: ${said.string.trim()}`;
      tell(`Done: ${said.status ? 'it was refused' : 'it was accepted'}`);
    });
  }

  confirmEvidence() {
    return this.session.call(command().confirm, ['mesh', 'walk', 'evidence']);
  }

  async checkCertificate() {
    const { lengths, list } = this.answer, keep = { keep: 'certificate', isLong: true };
    tell('Making a certificate');
    const { text } = await this.session.call(command().certify(lengths, list), ['mesh', 'lengths'], keep);
    this.certificate = text;
    tell('Checking the certificate');
    return this.session.call(`check 1 ${lengths} 3`, ['mesh', 'lengths', 'certificate']);
  }
}
