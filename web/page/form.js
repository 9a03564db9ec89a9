// What is asked for: the command, the lengths of edges, and the vertices that were chosen.
import { ASKS, COMMANDS } from './commands.js';
import { $, element } from './dom.js';

/** The chosen command: a row of COMMANDS. */
export const command = () => COMMANDS[$('command').value];

/** Fills the list of commands. */
export function fillCommands(cutsThrough) {
  for (const [value, { label }] of Object.entries(COMMANDS)) {
    if (value !== 'through' || cutsThrough) $('command').append(element('option', { value, textContent: label }));
  }
}

/** The vertices in the field; NaN for a word that is no number. */
export function chosenVertices() {
  const words = $('vertices').value.split(/[\s,;]+/).filter(Boolean);
  const list = words.map((word) => (/^\d+$/.test(word) ? Number(word) : NaN));
  return command().asks === 'one' ? list.slice(-1) : list;
}

/** Shows the fields that the chosen command asks for. */
export function showFields() {
  const { asks } = command();
  $('vertices-field').hidden = asks === 'none';
  $('asks').textContent = ASKS[asks];
  $('take-back').hidden = $('clear').hidden = asks !== 'many';
}
