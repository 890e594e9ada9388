/** `ponybluster explain`: a kind in words, or a packed image checked and explained. */
import { spawnSync } from 'node:child_process';
import { existsSync } from 'node:fs';
import path from 'node:path';
import { fileURLToPath } from 'node:url';
import { FileError } from '../files.mjs';
import { UsageError } from '../inputs.mjs';
import { KINDS } from '../kinds.mjs';

const RUN = fileURLToPath(new URL('../../../run', import.meta.url));

/** @returns {number} the exit status */
export function runExplain([word, ...more], out) {
  if (!word || more.length) throw new UsageError('explain takes a packed image, or a kind from 0 to 18');
  const kind = Object.keys(KINDS).find((one) => one === word || KINDS[one].name === word);
  if (kind === undefined) return explainImage(word);
  const { name, short, long } = KINDS[kind];
  out(`${kind} ${name}: ${short}.\n\n${long}\n`);
  return 0;
}

/** The script ./run says it, for it needs no Node; so the sentences about images stand in one place. */
function explainImage(image) {
  if (!existsSync(image)) throw new FileError(`there is no file ${image}, and no kind of that name`);
  const { status, error } = spawnSync(RUN, [path.resolve(image)], { stdio: 'inherit' });
  if (error) throw new FileError(`${RUN} could not be started (${error.code})`);
  return status ?? 2;
}
