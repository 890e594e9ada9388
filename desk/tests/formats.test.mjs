/** JSON and SARIF: every message of every kind keeps its schema. */
import assert from 'node:assert/strict';
import { readFileSync } from 'node:fs';
import { after, test } from 'node:test';
import { Engine } from '../src/engine.mjs';
import { json } from '../src/show/json.mjs';
import { sarif } from '../src/show/sarif.mjs';
import { CASES } from '../stored/cases.mjs';
import { checked } from './support/checked.mjs';
import { run } from './support/command.mjs';
import { violations } from './support/jsonschema.mjs';

const REPORT = JSON.parse(readFileSync(new URL('../report.schema.json', import.meta.url), 'utf8'));
const SARIF = JSON.parse(readFileSync(new URL('sarif.schema.json', import.meta.url), 'utf8'));
const engine = new Engine();
after(() => engine.stop());

test('the validator finds what breaks a schema', () => {
  const good = { version: 1, passed: true, mended: false, queries: [], findings: [] };
  assert.deepEqual(violations(REPORT, good), []);
  assert.equal(violations(REPORT, { ...good, version: 2 }).length, 1);
  assert.equal(violations(REPORT, { ...good, more: 1 }).length, 1);
  assert.equal(violations(REPORT, { ...good, queries: [{ name: 1 }] }).length, 2);
});

for (const one of CASES) {
  test(`json and sarif of ${one.kind}`, async () => {
    const { files, wrap = (same) => same, ...options } = one;
    const { report, project } = await checked(files, { ...options, engine: wrap(engine) });
    assert.deepEqual(violations(REPORT, JSON.parse(json(report, project))), []);
    assert.deepEqual(violations(SARIF, JSON.parse(sarif(report, project))), []);
  });
}

test('json: both fields, the path, what differs, and an edit that was tried', () => {
  const { stdout, status } = run(['check', '--format', 'json']);
  const { findings: [finding], passed, mended, queries } = JSON.parse(stdout);
  assert.deepEqual([status, passed, mended], [1, false, true]);
  assert.deepEqual(queries.map(({ name, file, state }) => [name, file, state]),
    [['query Chart', 'queries/chart.graphql', 'passed'], ['query Primer', 'queries/primer.graphql', 'refused']]);
  assert.deepEqual(finding.path, ['font', 'glyph', 'pos']);
  assert.deepEqual(finding.places.map(({ file, line, column }) => `${file}:${line}:${column}`), ['queries/primer.graphql:6:7', 'fragments/tone.graphql:2:3']);
  assert.deepEqual(finding.differences, [{ what: 'side', first: 'BELOW', second: 'ABOVE' }]);
  assert.deepEqual(finding.fix.edits.map(({ file, line, column, endColumn, text }) => [file, line, column, endColumn, text]),
    [['queries/primer.graphql', 6, 7, 12, 'posBelow: ']]);
});

test('sarif: both places, and a rule that says what the kind means', () => {
  const { runs: [{ results: [result], tool }] } = JSON.parse(run(['check', '--format', 'sarif']).stdout);
  assert.equal(tool.driver.rules[result.ruleIndex].id, 'conflict-arguments');
  assert.equal(result.locations[0].physicalLocation.artifactLocation.uri, 'queries/primer.graphql');
  assert.equal(result.relatedLocations[0].physicalLocation.artifactLocation.uri, 'fragments/tone.graphql');
});
