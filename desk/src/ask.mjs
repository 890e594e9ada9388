/**
 * Asks the proved program about one unit until nothing more is found.
 *
 * The check names one cause at a time. To find the next one, the unit is packed again with the last cause mended as its help says, and the
 * program is asked again. So every finding is an answer of the proved check. (Whether the mended text passes is asked later, by mend.mjs.)
 */
import { Engine, MOST_BUDGET } from './engine.mjs';
import { findingOf } from './finding.mjs';
import { findingOfError } from './findings/before.mjs';
import { PackError, pack } from './pack.mjs';

const MOST_FINDINGS = 50; // of one unit
const DOOR_BYTES = 32768;

/**
 * @typedef {object} Answer
 * @property {import('./project.mjs').Unit} unit
 * @property {import('./finding.mjs').Finding[]} findings
 * @property {'passed' | 'refused' | 'not checked'} state
 * @property {number} used  units of work
 * @property {number} words  of the image
 * @property {number} budget  the one with which the mended unit passes
 * @property {boolean} isComplete  whether the program answered 0 in the end
 */

/** @returns {Answer} of a unit that the program was not asked about */
export function notAsked(unit) {
  return { unit, findings: [], state: 'not checked', used: 0, words: 0, budget: 0, isComplete: false };
}

/**
 * @param {import('./project.mjs').Unit} unit
 * @param {{project: import('./project.mjs').Project, schema: import('graphql').GraphQLSchema, engine: Engine, budget: number,
 *   uses: (node: object) => number}} context
 * @returns {Promise<Answer>}
 */
export async function askAbout(unit, context) {
  const mended = new Map(unit.elsewhere.map((node) => [node, true]));
  const answer = { ...notAsked(unit), budget: context.budget };
  for (let first = true; ; first = false) {
    const packed = packOrFail(unit, mended, context, answer);
    if (!packed) return answer;
    if (first) answer.words = packed.words.length;
    if (!Engine.hasRoomFor(packed.words)) {
      answer.findings.push(tooLarge(packed.words.length, { unit, unchecked: true }));
      return answer;
    }
    const { reply, asked, needed } = await ask(packed.words, context);
    if (first) answer.used = reply.used;
    answer.state = 'refused';
    if (reply.kind === 0) break;
    const { finding, mend } = findingOf(reply, { ...context, packed, unit, mended, asked, needed });
    if (mend && mended.has(mend[0])) return answer; // only the help before has caused it
    answer.findings.push(finding);
    if (needed !== undefined) {
      answer.budget = needed;
      break;
    }
    if (answer.findings.length >= MOST_FINDINGS) finding.hints.push(`these are ${MOST_FINDINGS} findings in one query: more were not looked for`);
    if (!mend || answer.findings.length >= MOST_FINDINGS) return answer;
    mended.set(...mend);
  }
  answer.isComplete = true;
  if (!answer.findings.length) answer.state = 'passed';
  if (4 * answer.words > DOOR_BYTES) answer.findings.push(tooLarge(answer.words, { unit }));
  return answer;
}

function packOrFail(unit, mended, { schema, project }, answer) {
  try {
    return pack(schema, unit, project.target, mended);
  } catch (error) {
    if (!(error instanceof PackError)) throw error;
    answer.findings.push(findingOfError({ message: error.message, nodes: [error.node] }, 'schema'));
    return undefined;
  }
}

/**
 * The reply with this budget, or as much of it as the program has room for (`asked`). Where that runs out, the program is asked again with all
 * it has room for: what it finds then says more than "the budget ran out", and where it finds nothing, the budget that is `needed` is known.
 */
async function ask(image, { engine, budget }) {
  const most = Engine.mostBudget(image);
  const asked = budget > MOST_BUDGET ? budget : Math.min(budget, most); // too large a budget is for the program to refuse
  const reply = await engine.ask(image, asked);
  if (reply.kind !== 17 || asked === most) return { reply, asked };
  const again = await engine.ask(image, most);
  if (again.kind === 17) return { reply, asked };
  return again.kind === 0 ? { reply, asked, needed: again.used } : { reply: again, asked };
}

function tooLarge(words, about) {
  return findingOf({ kind: 18, operation: 0, a: 4 * words, b: 0, used: 0 }, about).finding;
}
