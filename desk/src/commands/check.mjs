/** `ponybluster check`: reads the files, checks them and shows what was found. */
import { writeFileSync } from 'node:fs';
import { PROGRAM_BUDGET, check } from '../check.mjs';
import { Engine, MOST_BUDGET } from '../engine.mjs';
import { FileError } from '../files.mjs';
import { findingOfError } from '../findings/before.mjs';
import { UsageError, chooseFiles, readTexts } from '../inputs.mjs';
import { Kind } from '../graphql.mjs';
import { progress } from '../progress.mjs';
import { Project } from '../project.mjs';
import { readSchema } from '../schema.mjs';
import { json } from '../show/json.mjs';
import { sarif } from '../show/sarif.mjs';
import { sheet } from '../show/sheet.mjs';
import { text } from '../show/text.mjs';

const FORMATS = { text, json, sarif };

/** @returns {Promise<number>} the exit status */
export async function runCheck(values, words, out, err) {
  const { show, ...options } = readOptions(values);
  const files = chooseFiles(values.schema, words);
  if (files.remark) err(`${files.remark}\n`);
  const far = progress(process.stderr);
  try {
    const { report, project } = await checkFiles(files, options, far);
    far.end();
    out(show(report, project, { colour: process.stdout.isTTY && !process.env.NO_COLOR && process.env.TERM !== 'dumb' }));
    if (values.sheet) writeSheet(values.sheet, sheet(report, project), err);
    if (report.unreadable) return 2;
    return report.passed ? 0 : 1;
  } finally {
    far.end();
  }
}

function readOptions({ format, budget = String(PROGRAM_BUDGET), 'all-rules': allRules }) {
  if (!Object.hasOwn(FORMATS, format)) throw new UsageError(`there is no format ${format}`);
  if (!/^\d+$/.test(budget) || Number(budget) > MOST_BUDGET) throw new UsageError('--budget takes a number from 0 to 1,000,000');
  return { show: FORMATS[format], budget: Number(budget), allRules };
}

async function checkFiles(files, options, far) {
  const engine = new Engine();
  engine.start(); // it gets ready while the files are read
  try {
    const schemaTexts = readTexts(files.schema);
    const texts = readTexts(files.queries, (done, all) => far.tell('read', done, all, 'files'));
    const { schema, errors } = readSchema(schemaTexts);
    if (!schema) return { project: new Project([...schemaTexts, ...texts]), report: schemaReport(errors) };
    const project = new Project(texts);
    needQuery(project, files.queries);
    const onProgress = (done, all) => far.tell('checked', done, all, 'queries');
    return { project, report: await check(project, schema, engine, { ...options, onProgress }) };
  } finally {
    engine.stop();
  }
}

function needQuery(project, files) {
  if (project.syntaxErrors.length || project.definitions(Kind.OPERATION_DEFINITION).length) return;
  throw new FileError(`there is no query in ${files.length === 1 ? files[0] : `these ${files.length} files`}: nothing was checked`);
}

/** The report on a schema that is wrong itself. */
function schemaReport(errors) {
  const findings = errors.map((error) => findingOfError(error, 'schema-text'));
  return { findings, queries: [], passed: false, mended: false, unreadable: true };
}

function writeSheet(file, page, err) {
  try {
    writeFileSync(file, page);
  } catch (error) {
    throw new FileError(`${file} cannot be written (${error.code})`);
  }
  err(`The page is in ${file}\n`);
}
