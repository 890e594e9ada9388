#!/usr/bin/env node
/**
 * Whether the comparison with the oracle finds mistakes: puts one mistake at a time into a copy of the desk, and compares.
 *
 *   python3 desk/compare/oracle_cases.py ORACLE 400 1 > cases.jsonl
 *   node desk/compare/mutants.mjs cases.jsonl
 *
 * Exit 1 where a mistake is not found.
 */
import { spawnSync } from 'node:child_process';
import { cpSync, mkdtempSync, readFileSync, rmSync, writeFileSync } from 'node:fs';
import { tmpdir } from 'node:os';
import path from 'node:path';
import { fileURLToPath } from 'node:url';
import { programCommand } from '../src/engine.mjs';

const DESK = fileURLToPath(new URL('..', import.meta.url));

/** What is wrong; and the file, a text in it, and what is put in its place, once or twice. */
const MISTAKES = [
  ['no mistake'],
  ['strings are compared as if they were names', ['src/pack.mjs', '`string ${node.value}`', '`name ${node.value}`']],
  ['floats are compared by value', ['src/pack.mjs', '`float ${node.value}`', '`float ${Number(node.value)}`']],
  ['a default of an argument is not seen', ['src/pack.mjs', 'defaultValue === undefined ? 0 : 1', '0']],
  ['a default of a variable is not seen', ['src/pack.mjs', 'variable.defaultValue ? 1 : 0', '0']],
  ['the alias is taken for the field', ['src/pack.mjs', '`name ${node.name.value}`, this.reference(type)', '`name ${response}`, this.reference(type)']],
  ['an inline fragment always has the type around it', ['src/pack.mjs', 'this.addSet(this.conditionType(node, parent), node, definition)',
    'this.addSet(parent, node, definition)']],
  ['directives of spreads are left out', ['src/pack.mjs', 'SELECTION.spread, 0, 0, 0, 0, 0, target, ...this.takeDirectives(node)',
    'SELECTION.spread, 0, 0, 0, 0, 0, target, 0, 0']],
  ['a union is taken for an interface', ['src/pack.mjs', 'return TYPE.union', 'return TYPE.interface']],
  ['lists that cannot be null are taken for lists that can', ['src/pack.mjs', 'REFERENCE.list + nonNull', 'REFERENCE.list']],
  ['the two fields of a conflict are shown in the wrong order', ['src/findings/conflict.mjs',
    '[packed.selections[reply.a], packed.selections[reply.b]]', '[packed.selections[reply.b], packed.selections[reply.a]]']],
  ['the way to two fields stops at the first level', ['src/witness.mjs', 'waiting.push({ ...next(), x: left.own, y: right.own });', '']],
  ['fields of an interface never meet fields of an object', ['src/witness.mjs', 'return x === y || !isObjectType(x) || !isObjectType(y);', 'return x === y;']],
  ['of a variable that is defined twice the earlier place is shown first', ['src/findings/variable.mjs', "variablePlace(row, 'a second time', unit)",
    "variablePlace(earlier, 'a second time', unit)"]],
  ['an edit is not what its help says, and is shown without a trial', ['src/findings/conflict.mjs', "text: isOwnName ? '' : `${name}: `", "text: ''"],
    ['src/mend.mjs', 'return kind === 0;', 'return true;']],
];

const [cases] = process.argv.slice(2);
const input = readFileSync(cases);
const [program, ...words] = programCommand();
let missed = 0;
for (const [what, ...changes] of MISTAKES) {
  const room = mkdtempSync(path.join(tmpdir(), 'desk-mutant-'));
  for (const part of ['src', 'compare']) cpSync(path.join(DESK, part), path.join(room, part), { recursive: true });
  for (const [file, from, to] of changes) {
    const right = readFileSync(path.join(room, file), 'utf8');
    if (!right.includes(from)) throw new Error(`${file} does not have: ${from}`);
    writeFileSync(path.join(room, file), right.replace(from, () => to));
  }
  const starter = path.join(room, 'program');
  writeFileSync(starter, `#!/bin/sh\nexec ${[program, ...words].map((word) => `'${word}'`).join(' ')}\n`, { mode: 0o755 });
  const { status, stdout } = spawnSync('node', [path.join(room, 'compare/against_oracle.mjs')], { input, encoding: 'utf8', maxBuffer: 1 << 28,
    env: { ...process.env, PONYBLUSTER_REPLAY: starter } });
  rmSync(room, { recursive: true });
  const found = /^DIFFERENT: (\d+)/m.exec(stdout)?.[1];
  console.log(`${what}: ${found ? `different, ${found} times` : status ? 'the desk stops' : 'no difference'}`);
  if (!changes.length && status) throw new Error('without a mistake there must be no difference');
  if (changes.length && !status) missed += 1;
}
console.log(`${MISTAKES.length - 1} mistakes, ${missed} not found`);
process.exitCode = missed ? 1 : 0;
