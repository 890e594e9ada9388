/** Runs the command `ponybluster`, and makes folders of files for it. */
import { spawnSync } from 'node:child_process';
import { mkdirSync, mkdtempSync, rmSync, writeFileSync } from 'node:fs';
import { tmpdir } from 'node:os';
import path from 'node:path';
import { after } from 'node:test';
import { fileURLToPath } from 'node:url';

export const DESK = fileURLToPath(new URL('../..', import.meta.url));
export const COMMAND = path.join(DESK, 'ponybluster');
export const EXAMPLE = path.join(DESK, 'example');

export function run(words, { cwd = EXAMPLE, env = process.env, ...more } = {}) {
  const { stdout, stderr, status } = spawnSync(COMMAND, words, { cwd, env, encoding: 'utf8', maxBuffer: 1 << 28, ...more });
  return { stdout, stderr, status };
}

/** A new folder with these files in it, gone after the tests. */
export function folderOf(files) {
  const folder = mkdtempSync(path.join(tmpdir(), 'desk-'));
  after(() => rmSync(folder, { recursive: true, force: true }));
  for (const [name, body] of Object.entries(files)) {
    mkdirSync(path.dirname(path.join(folder, name)), { recursive: true });
    writeFileSync(path.join(folder, name), body);
  }
  return folder;
}
