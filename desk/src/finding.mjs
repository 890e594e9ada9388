/** From the five numbers of a reply to a finding: the places, what differs there, why it matters, and how to mend it. */
import { conflict } from './findings/conflict.mjs';
import { fragmentChain, fragmentCycle, fragmentUnused } from './findings/fragment.mjs';
import { budget, doorSize, header, tableRule, tooDeep, toolFault, tooNested } from './findings/limit.mjs';
import { variableMisfit, variableTwice, variableType, variableUnused } from './findings/variable.mjs';
import { KINDS } from './kinds.mjs';
import { definitionName } from './names.mjs';

/** @typedef {import('./text.mjs').Span} Span */

/**
 * @typedef {object} Place
 * @property {Span} span  what is shown of it
 * @property {Span[]} marks  what is wrong there, to be underlined
 * @property {Span} [name]  the response name that both fields have
 * @property {string} label
 * @property {string} inside  the definition it stands in, as `fragment Tone`
 * @property {{text: string, span: Span}[]} [reached]  the operation, and the spreads that lead from it to this field
 * @property {string} [coordinate]  as `Glyph.anchor`
 * @property {string} [type]
 *
 * @typedef {object} Finding
 * @property {number | null} kind  null where the check was not asked
 * @property {string} rule  the kind's name, or a name of BEFORE in kinds.mjs
 * @property {'error' | 'warning'} severity
 * @property {string} title
 * @property {Place[]} places  the finding is shown at the first one; a conflict has two
 * @property {string[]} path  response names from the operation down
 * @property {import('./differ.mjs').Difference[]} differences
 * @property {string} sentence  why it matters, for a designer
 * @property {string[]} hints  what may help; nobody tried it
 * @property {string} [help]  how to mend it
 * @property {{edits: import('./edits.mjs').Edit[], label: string}} [fix]  the edits that do what the help says
 * @property {boolean} tried  whether the text with the fix made was put to the proved check and passed; help and fix are shown only then
 * @property {string[]} operations  the operations in which it was found
 * @property {import('./engine.mjs').Reply} [reply]
 */

/**
 * @param {import('./engine.mjs').Reply} reply
 * @param {{packed: import('./pack.mjs').Packed, unit: import('./project.mjs').Unit, project: import('./project.mjs').Project,
 *   mended: import('./pack.mjs').Mended, uses: (node: object) => number, budget?: number, asked?: number, needed?: number,
 *   unchecked?: boolean}} about
 * @returns {{finding: Finding, mend?: [object, string | true]}}  `mend`: what the packer takes as mended, to ask what else is wrong
 */
export function findingOf(reply, about) {
  const make = MAKERS[reply.kind] ?? toolFault;
  const { mend, ...made } = make(reply, about);
  const { name: rule } = KINDS[reply.kind] ?? { name: 'unknown' };
  const operations = about.unit.operations.map(definitionName);
  const base = { kind: reply.kind, rule, severity: 'error', path: [], differences: [], hints: [], tried: false, operations, reply };
  return { mend, finding: { ...base, ...made } };
}

/** Who words each kind. Any other kind is a fault of the tool. */
const MAKERS = {
  1: header, 4: tableRule, 5: fragmentCycle, 6: fragmentChain, 7: tooDeep, 8: tooNested, 9: fragmentUnused, 10: variableType, 11: variableTwice,
  12: variableUnused, 13: variableMisfit, 14: conflict, 15: conflict, 16: conflict, 17: budget, 18: doorSize,
};
