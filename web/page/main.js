// The page: unpacks the program, and joins what a user does to the finder.
import { COMMANDS } from './commands.js';
import { $, element, save, unpacked } from './dom.js';
import { fillCommands } from './form.js';
import { showFault } from './faults.js';
import { kleinBottle } from './samples.js';
import { Viewer } from './viewer.js';
import { Session } from './session.js';
import { Finder, tell } from './finder.js';
import { Handles } from './handles.js';

const SAMPLES = { ring: 'genus 1', eight: 'genus 2', three: 'genus 3', noisy: 'genus 13', 'Klein bottle': 'one side' };

const decoded = (bytes) => new TextDecoder().decode(bytes);

let samples = null;

async function sample(name) {
  if (name === 'Klein bottle') return new Blob([kleinBottle(28, 16)]);
  samples ||= JSON.parse(decoded(await unpacked('samples-data')));
  return new Blob([samples[name]]);
}

function showSamples(finder) {
  for (const [name, kind] of Object.entries(SAMPLES)) {
    const button = element('button', { type: 'button', textContent: name, title: kind });
    const file = name === 'Klein bottle' ? 'klein.off' : `${name}.off`;
    button.onclick = async () => finder.open(file, await sample(name));
    $('samples').append(button);
  }
}

/** Opens a file of the user's, once the program stands. */
async function take(file) {
  if (file) await (await ready).open(file.name, file);
}

function listenToFiles() {
  $('file').onchange = (event) => take(event.target.files[0]).then(() => { event.target.value = ''; });
  for (const kind of ['dragenter', 'dragover']) {
    document.addEventListener(kind, (event) => {
      event.preventDefault();
      document.body.classList.add('over');
    });
  }
  document.addEventListener('dragleave', (event) => {
    if (!event.relatedTarget) document.body.classList.remove('over');
  });
  document.addEventListener('drop', (event) => {
    event.preventDefault();
    document.body.classList.remove('over');
    take(event.dataTransfer.files[0]);
  });
}

function listen(finder) {
  $('form').onsubmit = (event) => {
    event.preventDefault();
    finder.find();
  };
  $('command').onchange = () => finder.takeCommand();
  $('lengths').onchange = () => finder.find();
  $('vertices').oninput = () => finder.showMarks();
  $('take-back').onclick = () => finder.takeBack(false);
  $('clear').onclick = () => finder.takeBack(true);
  $('stop').onclick = () => finder.restart();
  $('save').onclick = () => save(finder.answer.bytes, finder.answer.name);
  $('picture').onclick = async () => save(await finder.viewer.view.picture(), 'surf.png');
  $('certify').onclick = () => finder.certify();
  $('save-certificate').onclick = () => save(finder.certificate, 'surf.cert');
}

/** Unpacks the program and starts it. In the address `#plain` leaves WebGL aside; `#do=cycle` chooses a command. */
async function begin() {
  const asked = new URLSearchParams(location.hash.slice(1)), viewer = new Viewer(asked.has('plain'));
  const [worker, program] = await Promise.all([unpacked('worker'), unpacked('program')]);
  const session = new Session(decoded(worker), program), finder = new Finder(viewer, session);
  fillCommands((await session.start()).cutsThrough);
  showSamples(finder);
  if (COMMANDS[asked.get('do')]) $('command').value = asked.get('do');
  listen(finder);
  new Handles(finder);
  finder.showFields();
  finder.showButtons();
  tell('Ready');
  return finder;
}

listenToFiles();
const ready = begin();
ready.catch((fault) => {
  tell('The page can’t start');
  showFault(`This browser can't run it: ${fault.message}`);
});
