/** Tries the help: makes the fixes in the texts, reads these texts again and puts them to the proved check. */
import { editedTexts } from './edits.mjs';
import { Engine } from './engine.mjs';
import { Kind } from './graphql.mjs';
import { pack } from './pack.mjs';
import { Project } from './project.mjs';
import { misfits } from './schema.mjs';
import { inTurn } from './turns.mjs';

/**
 * Marks each finding whose mended text passes. First all fixes are made at once, in all files. If some unit does not pass then, the fixes of
 * each unit are tried for themselves.
 * @param {import('./ask.mjs').Answer[]} answers
 * @param {{project: Project, schema: import('graphql').GraphQLSchema, engine: Engine}} context
 * @returns {Promise<boolean>} whether every refused unit passes with all fixes made
 */
export async function tryFixes(answers, context) {
  const refused = answers.filter(({ state }) => state === 'refused');
  const mendable = refused.filter(({ isComplete }) => isComplete);
  const changed = editsOf(mendable, context.project);
  const isTouched = ({ unit, state }) => state === 'refused' || filesOf(unit).some((file) => changed.has(file));
  const touched = answers.filter((answer) => answer.isComplete && isTouched(answer));
  if (await allPass(touched, changed, context)) {
    for (const { findings } of mendable) markTried(findings);
    return refused.length === mendable.length;
  }
  const failed = new Set();
  for (const answer of mendable) {
    const own = editsOf([answer], context.project);
    if (!(await passes(answer, own, context))) for (const finding of answer.findings) failed.add(finding);
  }
  for (const { findings } of mendable) markTried(findings.filter((finding) => !failed.has(finding)));
  return false;
}

function markTried(findings) {
  for (const finding of findings) finding.tried ||= finding.fix !== undefined;
}

/** The texts with the fixes of these answers made. */
function editsOf(answers, { texts }) {
  return editedTexts(answers.flatMap(({ findings }) => findings.flatMap(({ fix }) => fix?.edits ?? [])), texts);
}

async function allPass(answers, changed, context) {
  const results = await inTurn(answers, (answer) => passes(answer, changed, context));
  return results.every(Boolean);
}

/** Whether the proved check answers 0 to a unit in the changed texts. */
async function passes({ unit, budget }, changed, { project, schema, engine }) {
  const mended = mendedUnit(unit, changed, project);
  if (!mended || !fits(mended, schema)) return false;
  const { words } = pack(schema, mended.unit, mended.project.target, new Map(mended.unit.elsewhere.map((node) => [node, true])));
  if (!Engine.hasRoomFor(words)) return false;
  const { kind } = await engine.ask(words, Math.min(budget, Engine.mostBudget(words)));
  return kind === 0;
}

/** The same unit in the changed texts, or undefined where they cannot be read. */
function mendedUnit(unit, changed, project) {
  const mended = new Project(filesOf(unit).map((file) => changed.get(file) ?? project.texts.get(file)));
  if (mended.syntaxErrors.length) return undefined;
  const [operation] = unit.operations;
  if (!operation) return { project: mended, unit: mended.unusedUnit(unit.file, stillThere(unit, mended)) };
  const same = mended.operationsIn(unit.file)[project.operationsIn(unit.file).indexOf(operation)];
  const found = mended.units().find(({ operations }) => operations[0] === same);
  return found && { project: mended, unit: found };
}

/** The unused fragments of a unit that the changed texts still have. */
function stillThere({ file, fragments, elsewhere }, mended) {
  const names = new Set(fragments.filter((node) => !elsewhere.includes(node)).map(({ name }) => name.value));
  const definitions = mended.documents.get(file)?.definitions ?? [];
  return new Set(definitions.filter(({ kind, name }) => kind === Kind.FRAGMENT_DEFINITION && names.has(name.value)));
}

/** Whether every spread of a unit has its fragment, and the unit fits the schema. */
function fits({ project, unit }, schema) {
  return [...unit.members].every((definition) => {
    const document = project.documents.get(definition.loc.source.name);
    const isInside = ({ loc }) => loc && definition.loc.start <= loc.start && loc.end <= definition.loc.end;
    return project.spreads(definition).every((spread) => project.target(spread))
      && !misfits(schema, document).some(({ nodes = [] }) => nodes.some(isInside));
  });
}

function filesOf({ members }) {
  return [...new Set([...members].map(({ loc }) => loc.source.name))];
}
