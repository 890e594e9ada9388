/** Which schema and which queries belong together, where the command line does not say it: .graphqlrc.json, or a schema nearby. */
import { existsSync, readFileSync } from 'node:fs';
import path from 'node:path';
import { FileError, expand } from './files.mjs';

const CONFIGS = ['.graphqlrc.json', '.graphqlrc', 'graphql.config.json'];
const SCHEMA = 'schema.graphql';

/** @typedef {{file: string, root: string, schema: string[], documents: string[]}} Config  words as on a command line in `root` */

/** @returns {Config | undefined} the config file of this folder, else of the nearest folder above it */
export function findConfig(folder) {
  for (const at of upwards(folder)) {
    const file = CONFIGS.map((name) => path.join(at, name)).find(existsSync);
    if (file) return { file, root: at, ...readConfig(file) };
  }
  return undefined;
}

function readConfig(file) {
  let config;
  try {
    config = JSON.parse(readFileSync(file, 'utf8'));
  } catch {
    throw new FileError(`${file} is not JSON; of graphql-config's forms only JSON is read`);
  }
  const { schema = [], documents = [], projects } = config ?? {};
  if (projects) throw new FileError(`${file} has several projects; only one "schema" with its "documents" is read`);
  const words = [schema, documents].map((value) => [value].flat());
  if (words.flat().some((word) => typeof word !== 'string')) throw new FileError(`${file}: "schema" and "documents" are file names or lists of them`);
  return { schema: words[0], documents: words[1] };
}

/** The files of a config, as full paths; a schema file is never a query. */
export function configFiles({ root, schema, documents }) {
  const full = (words) => [...new Set(words.flatMap((word) => expand(word, root)).map((file) => path.resolve(root, file)))];
  const schemaFiles = full(schema);
  return { schema: schemaFiles, documents: full(documents).filter((file) => !schemaFiles.includes(file)) };
}

/** NAME.schema.graphql beside NAME.graphql, else schema.graphql in the query's folder or the nearest folder above it. */
export function schemaNear(query) {
  const full = path.resolve(query);
  const own = full.replace(/\.(graphql|gql)$/, '.schema.graphql');
  if (own !== full && existsSync(own)) return own;
  return upwards(path.dirname(full)).map((folder) => path.join(folder, SCHEMA)).find(existsSync);
}

function upwards(folder) {
  const out = [path.resolve(folder)];
  while (out.at(-1) !== path.dirname(out.at(-1))) out.push(path.dirname(out.at(-1)));
  return out;
}
