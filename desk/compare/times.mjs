#!/usr/bin/env node
/**
 * The time from a text to its answer, beside graphql-js's validate on the same text, in a process that runs already; and of the whole command.
 *
 *   node desk/compare/times.mjs
 *
 * Milliseconds: the shortest and the median of up to 60 rounds, after some that are not counted. The texts are made here, against
 * compare/peers/schema.graphql; nothing is wrong in them.
 */
import { spawnSync } from 'node:child_process';
import { mkdtempSync, readFileSync, rmSync, writeFileSync } from 'node:fs';
import { tmpdir } from 'node:os';
import path from 'node:path';
import { fileURLToPath } from 'node:url';
import { check } from '../src/check.mjs';
import { Engine } from '../src/engine.mjs';
import { OverlappingFieldsCanBeMergedRule, Source, parse, specifiedRules, validate } from '../src/graphql.mjs';
import { pack } from '../src/pack.mjs';
import { Project } from '../src/project.mjs';
import { misfits, readSchema } from '../src/schema.mjs';
import { Text } from '../src/text.mjs';

const ROOT = fileURLToPath(new URL('../..', import.meta.url));
const SCHEMA = path.join(ROOT, 'compare/peers/schema.graphql');
const ROUNDS = 60;
const NOT_COUNTED = 5;
const LONGEST = 4000; // milliseconds for one figure
const BUDGET = 5000;

/** A query of so many lines: fonts with their glyphs, and two shared fragments. */
function ordinary(lines) {
  const font = (i) => [`  f${i}: font(id: ${i}) {`, '    name', '    weight', `    glyphs(first: ${i + 1}) {`, '      code', '      ...Mark',
    '    }', '    ...Face', '  }'];
  const body = Array.from({ length: Math.floor((lines - 12) / 9) }, (_, i) => font(i)).flat();
  return ['query Chart {', ...body, '}', 'fragment Face on Font {', '  size', '  nick', '  main { ...Mark }', '}', 'fragment Mark on Glyph {',
    '  name', '  pos: anchor(side: ABOVE) { x y }', '}'].join('\n');
}

/** One field written again and again. */
function repeated(lines) {
  return ['query Again {', '  font(id: 1) {', ...Array.from({ length: lines - 4 }, () => '    anchor(side: ABOVE) { x }'), '  }', '}'].join('\n');
}

/** The shortest time and the median. */
async function time(work) {
  const times = [];
  const begin = performance.now();
  for (let i = 0; i < ROUNDS + NOT_COUNTED && (times.length < 3 || performance.now() - begin < LONGEST); i += 1) {
    const start = performance.now();
    await work();
    if (i >= NOT_COUNTED || performance.now() - begin > LONGEST / 4) times.push(performance.now() - start);
  }
  times.sort((x, y) => x - y);
  return [times[0], times[times.length >> 1]].map((one) => one.toFixed(1).padStart(9)).join('');
}

const { schema } = readSchema([new Text(SCHEMA, readFileSync(SCHEMA, 'utf8'))]);
const engine = new Engine();
const folder = mkdtempSync(path.join(tmpdir(), 'desk-times-'));
const TEXTS = { '50 lines': ordinary(50), '500 lines': ordinary(500), '50 lines, one field': repeated(50), '500 lines, one field': repeated(500) };
for (const [name, body] of Object.entries(TEXTS)) {
  const make = () => new Project([new Text('q', body)]);
  const project = make();
  const [unit] = project.units();
  const { words } = pack(schema, unit, project.target);
  const report = await check(project, schema, engine, { budget: BUDGET });
  if (!report.passed) throw new Error('the text should pass');
  const read = () => parse(new Source(body, 'q'));
  const file = path.join(folder, 'q.graphql');
  writeFileSync(file, body);
  const command = () => spawnSync(path.join(ROOT, 'desk/ponybluster'), ['check', '--schema', SCHEMA, '--budget', String(BUDGET), file]);
  const rows = {
    'text to answer': await time(() => check(make(), schema, engine, { budget: BUDGET })),
    '  of it, parsing': await time(read),
    '  of it, fit with the schema': await time(() => misfits(schema, read())),
    '  of it, packing': await time(() => pack(schema, unit, project.target)),
    '  of it, the proved program': await time(() => engine.ask(words, BUDGET)),
    'graphql-js, parse and merge rule': await time(() => validate(schema, read(), [OverlappingFieldsCanBeMergedRule])),
    'graphql-js, parse and all rules': await time(() => validate(schema, read(), specifiedRules)),
    'the whole command': await time(command),
  };
  console.log(`${name} (${body.split('\n').length} lines, ${words.length} words, ${report.queries[0].used} units)`);
  for (const [what, times] of Object.entries(rows)) console.log(`  ${what.padEnd(36)}${times}`);
}
engine.stop();
rmSync(folder, { recursive: true });
