/** Checks a project: what stands in the way of an image, what the proved program answers, and whether the help was tried. */
import { askAbout, notAsked } from './ask.mjs';
import { findingOfError, missingFragment } from './findings/before.mjs';
import { tryFixes } from './mend.mjs';
import { misfits, otherErrors } from './schema.mjs';
import { inTurn } from './turns.mjs';

export const PROGRAM_BUDGET = 1000; // the program ponybluster has it too
const MOST_MISFITS = 50; // shown of one file

/**
 * @typedef {object} Report
 * @property {import('./finding.mjs').Finding[]} findings  in the order of the files
 * @property {{name: string, file: string, state: 'passed' | 'refused' | 'not checked', used: number, words: number}[]} queries
 * @property {boolean} passed  whether every query was checked and nothing is wrong
 * @property {boolean} mended  whether the proved check passes everything with all help followed; false where nothing is refused
 * @property {boolean} unreadable  whether a text is not GraphQL
 */

/**
 * @param {import('./project.mjs').Project} project
 * @param {import('graphql').GraphQLSchema} schema
 * @param {import('./engine.mjs').Engine} engine
 * @param {object} [options]
 * @param {number} [options.budget]
 * @param {boolean} [options.allRules]  also graphql-js's other rules
 * @param {Set<string>} [options.only]  only the units that have a part in these files
 * @param {(done: number, all: number) => void} [options.onProgress]
 * @returns {Promise<Report>}
 */
export async function check(project, schema, engine, { budget = PROGRAM_BUDGET, allRules = false, only, onProgress = () => {} } = {}) {
  const all = project.units();
  const { units, files } = chosen(project, all, only);
  const before = beforeTheCheck(project, schema, files);
  const asked = units.filter(({ operations }) => operations.length || before.allSpreadsKnown);
  const context = { project, schema, engine, budget, uses: counter(all) };
  let done = 0;
  const answers = await inTurn(asked, async (unit) => {
    const isBroken = [...unit.members].some((node) => before.broken.has(node));
    const answer = isBroken ? notAsked(unit) : await askAbout(unit, context);
    onProgress(done += 1, asked.length);
    return answer;
  });
  shareFindings(answers);
  const mended = await tryFixes(answers, context);
  const found = new Set([...before.findings, ...answers.flatMap(({ findings }) => findings)]);
  const rest = allRules ? otherFindings(schema, asked, [...found]) : [];
  const findings = inOrder(project, [...found, ...rest]);
  const allAsked = !before.findings.length && answers.every(({ state }) => state !== 'not checked');
  return {
    findings,
    queries: answers.filter(({ unit }) => unit.operations.length).map(queryOf),
    passed: findings.every(({ severity }) => severity !== 'error') && answers.every(({ state }) => state === 'passed'),
    mended: mended && allAsked && findings.some(({ tried }) => tried),
    unreadable: project.syntaxErrors.length > 0,
  };
}

function queryOf({ unit, state, used, words }) {
  return { name: unit.name, file: unit.file, state, used, words };
}

/** The units to check, and the files they stand in. */
function chosen(project, all, only) {
  if (!only) return { units: all, files: [...project.texts.keys()] };
  const filesOf = ({ members }) => [...members].map(({ loc }) => loc.source.name);
  const units = all.filter((unit) => filesOf(unit).some((file) => only.has(file)));
  return { units, files: [...new Set([...only, ...units.flatMap(filesOf)])] };
}

/** What stands in the way of an image, and the definitions that have none because of it. */
function beforeTheCheck(project, schema, files) {
  const wanted = new Set(files);
  const findings = project.syntaxErrors.filter(({ source }) => wanted.has(source.name)).map((error) => findingOfError(error, 'syntax'));
  const broken = new Set();
  let allSpreadsKnown = !project.syntaxErrors.length; // else a fragment that seems unused may be the one that is meant
  for (const file of files) {
    const document = project.documents.get(file);
    if (!document) continue;
    const errors = misfits(schema, document);
    for (const error of errors.slice(0, MOST_MISFITS)) findings.push(findingOfError(error, 'schema'));
    if (errors.length > MOST_MISFITS) findings.at(-1).hints.push(`${errors.length - MOST_MISFITS} more places of this file do not fit the schema`);
    for (const definition of document.definitions) {
      const isInside = ({ loc }) => loc && loc.start >= definition.loc.start && loc.end <= definition.loc.end;
      if (errors.some(({ nodes }) => nodes.some(isInside))) broken.add(definition);
      for (const spread of project.spreads(definition)) {
        if (project.target(spread)) continue;
        findings.push(missingFragment(spread, project));
        broken.add(definition);
        allSpreadsKnown = false;
      }
    }
  }
  return { findings, broken, allSpreadsKnown };
}

/** In how many units each definition is. */
function counter(units) {
  const counts = new Map();
  for (const { members } of units) for (const node of members) counts.set(node, (counts.get(node) ?? 0) + 1);
  return (node) => counts.get(node) ?? 0;
}

/** What several operations reach is found in each of them: it becomes one finding that names them all. */
function shareFindings(answers) {
  const known = new Map();
  for (const answer of answers) {
    answer.findings = answer.findings.map((finding) => {
      const places = finding.places.map(({ span }) => `${span.file}:${span.start}:${span.end}`).sort();
      const key = [finding.rule, finding.title, ...places].join('\n');
      if (!known.has(key)) known.set(key, { finding, operations: new Set() });
      for (const operation of finding.operations) known.get(key).operations.add(operation);
      return known.get(key).finding;
    });
  }
  for (const { finding, operations } of known.values()) finding.operations = [...operations];
}

/** What graphql-js's other rules find, without what the proved check has said at the same place. */
function otherFindings(schema, units, known) {
  const said = known.filter(({ kind }) => kind === 13).map(({ places: [{ span }] }) => span);
  const isSaid = ({ loc }) => said.some(({ file, start, end }) => file === loc.source.name && start <= loc.start && loc.end <= end);
  const errors = units.flatMap((unit) => otherErrors(schema, unit)).filter(({ nodes }) => !nodes.some(isSaid));
  const byPlace = new Map(errors.map((error) => [`${error.nodes[0].loc.source.name} ${error}`, error]));
  return [...byPlace.values()].map((error) => findingOfError(error, 'graphql-js'));
}

function inOrder(project, findings) {
  const order = new Map([...project.texts.keys()].map((file, i) => [file, i]));
  const at = ({ places: [{ span }] }) => [order.get(span.file), span.start];
  return findings.map((finding) => ({ finding, at: at(finding) }))
    .sort((x, y) => x.at[0] - y.at[0] || x.at[1] - y.at[1]).map(({ finding }) => finding);
}
