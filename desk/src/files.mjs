/** Files: which ones a name, a folder or a pattern stands for, and their texts. */
import { existsSync, readFileSync, readdirSync, statSync } from 'node:fs';
import path from 'node:path';
import { isPattern, parts } from './glob.mjs';
import { Text } from './text.mjs';

/** A file is missing or cannot be read. */
export class FileError extends Error {}

const QUERY_FILE = /\.(graphql|gql)$/;

/** @returns {string[]} the files that one word of the command line stands for, named from `root` */
export function expand(word, root = process.cwd()) {
  const full = path.resolve(root, word);
  const named = (file) => (path.isAbsolute(word) ? file : path.relative(root, file));
  if (existsSync(full)) {
    if (!statSync(full).isDirectory()) return [word];
    const found = filesBelow(full).filter((file) => QUERY_FILE.test(file));
    if (!found.length) throw new FileError(`the folder ${word} has no .graphql or .gql file`);
    return found.map(named);
  }
  if (!isPattern(word)) throw new FileError(`there is no file ${word}`);
  const { folder, wanted } = parts(word);
  const base = path.resolve(root, folder);
  const found = existsSync(base) ? filesBelow(base).filter((file) => wanted.test(path.relative(base, file))) : [];
  if (!found.length) throw new FileError(`no file is named like ${word}`);
  return found.map(named);
}

/** All files below a folder, in order of their names. Hidden folders and node_modules are left out. */
function filesBelow(folder) {
  const out = [];
  for (const entry of entriesOf(folder)) {
    const full = path.join(folder, entry.name);
    if (!entry.isDirectory()) out.push(full);
    else if (entry.name !== 'node_modules' && !entry.name.startsWith('.')) for (const file of filesBelow(full)) out.push(file);
  }
  return out;
}

function entriesOf(folder) {
  try {
    return readdirSync(folder, { withFileTypes: true }).sort((x, y) => (x.name < y.name ? -1 : 1));
  } catch (error) {
    throw new FileError(`the folder ${folder} cannot be read (${error.code})`);
  }
}

export function readText(file) {
  let bytes;
  try {
    bytes = readFileSync(file);
  } catch (error) {
    throw new FileError(error.code === 'ENOENT' ? `there is no file ${file}` : `${file} cannot be read (${error.code ?? error.message})`);
  }
  const body = decoded(bytes);
  if (body === undefined) throw new FileError(`${file}:${badLine(bytes)}: this line is not UTF-8; save the file as UTF-8`);
  return new Text(file, body);
}

/** The text of these bytes without a byte order mark, or undefined where they are not UTF-8. */
function decoded(bytes) {
  try {
    return new TextDecoder('utf-8', { fatal: true }).decode(bytes);
  } catch {
    return undefined;
  }
}

function badLine(bytes) {
  let start = 0;
  for (let line = 1; ; line += 1) {
    const end = bytes.indexOf(0x0a, start);
    if (end < 0 || decoded(bytes.subarray(start, end)) === undefined) return line;
    start = end + 1;
  }
}
