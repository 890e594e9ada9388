/** From the words of a command line to the files: schema and queries, those named, else those of .graphqlrc.json, else a schema nearby. */
import path from 'node:path';
import { configFiles, findConfig, schemaNear } from './config.mjs';
import { FileError, expand, readText } from './files.mjs';

/** Something is missing on the command line. */
export class UsageError extends Error {}

const MOST_COMPLAINTS = 10;

/**
 * @param {string[]} schemaWords
 * @param {string[]} queryWords
 * @param {string} folder
 * @returns {{schema: string[], queries: string[], remark?: string}}  file names; the remark says where the schema was found
 */
export function chooseFiles(schemaWords, queryWords, folder = process.cwd()) {
  const config = schemaWords.length && queryWords.length ? undefined : findConfig(folder);
  const fromConfig = config && configFiles(config);
  const named = (files = []) => files.map((file) => path.relative(folder, file));
  const all = (words) => distinct(words.flatMap((word) => expand(word, folder)), folder);
  const queries = queryWords.length ? all(queryWords) : named(fromConfig?.documents);
  if (!queries.length) throw new UsageError('which queries? Name files, folders or patterns, or write "documents" in .graphqlrc.json');
  const { schema, remark } = chooseSchema(all(schemaWords), named(fromConfig?.schema), queries, folder);
  const isSchema = new Set(schema.map((file) => path.resolve(folder, file)));
  const rest = queries.filter((file) => !isSchema.has(path.resolve(folder, file)));
  if (!rest.length) throw new FileError('the schema is the only file that was named: there is no query');
  return { schema, queries: rest, remark };
}

/** A file that is named in two ways counts once. */
function distinct(files, folder) {
  const byPath = new Map();
  for (const file of files) if (!byPath.has(path.resolve(folder, file))) byPath.set(path.resolve(folder, file), file);
  return [...byPath.values()];
}

function chooseSchema(given, fromConfig, queries, folder) {
  if (given.length) return { schema: given };
  if (fromConfig.length) return { schema: fromConfig };
  const near = schemaNear(path.resolve(folder, queries[0]));
  if (!near) {
    throw new UsageError(`which schema? Give --schema FILE, or write "schema" in .graphqlrc.json; `
      + `there is no ${path.basename(queries[0]).replace(/\.\w+$/, '')}.schema.graphql or schema.graphql near ${queries[0]}`);
  }
  const name = path.relative(folder, near);
  return { schema: [name], remark: `schema: ${name}` };
}

/** The texts of these files. If some cannot be read, all of those are named. */
export function readTexts(files, tell = () => {}) {
  const texts = [];
  const complaints = [];
  for (const file of files) {
    try {
      texts.push(readText(file));
    } catch (error) {
      if (!(error instanceof FileError)) throw error;
      complaints.push(error.message);
    }
    tell(texts.length + complaints.length, files.length);
  }
  if (!complaints.length) return texts;
  const more = complaints.length - MOST_COMPLAINTS;
  throw new FileError([...complaints.slice(0, MOST_COMPLAINTS), ...(more > 0 ? [`and ${more} more files`] : [])].join('\nponybluster: '));
}
