/** A report as SARIF 2.1.0, which CI services and editors read. The second field is a related location. */
import path from 'node:path';
import { pathToFileURL } from 'node:url';
import { BEFORE, KINDS } from '../kinds.mjs';
import { plain } from './json.mjs';

/** @param {import('../check.mjs').Report} report @param {import('../project.mjs').Project} project */
export function sarif(report, project) {
  const { findings } = plain(report, project);
  const rules = [...new Set(findings.map(({ rule }) => rule))].sort();
  const run = {
    tool: { driver: { name: 'ponybluster', rules: rules.map(ruleText) } },
    columnKind: 'utf16CodeUnits',
    results: findings.map((finding) => result(finding, rules)),
  };
  return `${JSON.stringify({ $schema: 'https://json.schemastore.org/sarif-2.1.0.json', version: '2.1.0', runs: [run] }, null, 2)}\n`;
}

function ruleText(id) {
  const kind = Object.values(KINDS).find(({ name }) => name === id);
  const short = kind?.short ?? BEFORE[id] ?? id;
  return { id, shortDescription: { text: short }, fullDescription: { text: kind?.long ?? short } };
}

function result(finding, rules) {
  const [first, ...others] = finding.places;
  return {
    ruleId: finding.rule,
    ruleIndex: rules.indexOf(finding.rule),
    level: finding.severity,
    message: { text: messageOf(finding, first) },
    locations: [location(first)],
    relatedLocations: others.map((place, i) => ({ id: i + 1, ...location(place), message: { text: place.label || 'and here' } })),
    fixes: finding.fix && [{ description: { text: finding.fix.label }, artifactChanges: finding.fix.edits.map(change) }],
    properties: { kind: finding.kind, path: finding.path, differences: finding.differences, hints: finding.hints },
  };
}

function messageOf({ title, sentence, help }, { label }) {
  return [label ? `${title}: ${label}` : title, sentence, help && `Help: ${help}.`].filter(Boolean).join('\n');
}

function location(place) {
  return { physicalLocation: { artifactLocation: { uri: uri(place.file) }, region: region(place) },
    logicalLocations: place.inside ? [{ name: place.inside }] : undefined };
}

function change(edit) {
  return { artifactLocation: { uri: uri(edit.file) }, replacements: [{ deletedRegion: region(edit), insertedContent: { text: edit.text } }] };
}

function region({ line, column, endLine, endColumn }) {
  return { startLine: line, startColumn: column, endLine, endColumn };
}

function uri(file) {
  return path.isAbsolute(file) ? pathToFileURL(file).href : file.split(path.sep).map(encodeURIComponent).join('/');
}
