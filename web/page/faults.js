// What went wrong, in words and on the mesh, and what may help.
import { $, element } from './dom.js';
import { explain } from './refusals.js';

export function clearFault() {
  $('fault').replaceChildren();
  $('cures').replaceChildren();
}

export function showFault(text) {
  $('fault').append(element('p', { textContent: text }));
}

/** Shows a refusal, marks what it names, and offers what may help. A cure that is taken goes to `apply`. */
export function showRefusal(line, viewer, apply) {
  const { text, edges = [], faces = [], vertices = [], cures = [] } = explain(line, viewer.shape);
  $('fault').replaceChildren(element('p', { textContent: text }), element('code', { textContent: line }));
  if (edges.length + faces.length + vertices.length > 0) viewer.mark({ edges, faces, vertices, isFault: true });
  $('cures').replaceChildren(...cures.map((cure) => {
    const button = element('button', { type: 'button', textContent: cure.label });
    button.onclick = () => apply(cure);
    return button;
  }));
}
