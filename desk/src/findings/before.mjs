/** What the check cannot be asked, because there is no image: not GraphQL, no fit with the schema, no fragment of that name. */
import { nearNames } from '../names.mjs';
import { spanOf } from '../text.mjs';
import { definitionPlace, shownSpan, wholePlace } from './places.mjs';

const SENTENCES = {
  syntax: 'From here on the text cannot be read as GraphQL.',
  'schema-text': 'Without its schema no query can be checked.',
  schema: 'What does not fit the schema has no answer, so this query was not checked.',
  'graphql-js': 'This is a rule of graphql-js. The proved check does not have it.',
};

/** @returns {import('../finding.mjs').Finding} */
function finding(rule, title, places, sentence, hints = []) {
  return { kind: null, rule, severity: 'error', title, places, path: [], differences: [], sentence, hints, tried: false, operations: [] };
}

/** From an error of graphql-js. */
export function findingOfError(error, rule) {
  const nodes = error.nodes ?? [];
  const spans = nodes.length ? nodes.map(shownSpan) : [wordAt(error.source, error.positions?.[0] ?? 0)];
  const [message, ...hints] = error.message.replace(/^Syntax Error: /, '').split(/ (?=Did you mean)/).map(quoted);
  const places = spans.map((span, i) => wholePlace(span, i ? 'and here' : ''));
  return finding(rule, message.replace(/\.$/, ''), places, SENTENCES[rule], hints.map((text) => text.replace(/^D/, 'd')));
}

/** graphql-js puts names in quotes; here they stand in backquotes. */
function quoted(text) {
  return text.replace(/"([^"]*)"/g, '`$1`');
}

function wordAt({ name, body }, start) {
  const word = /^[\w$]+|^\S/.exec(body.slice(start))?.[0] ?? '';
  return { file: name, start, end: start + Math.max(1, word.length) };
}

/** A spread whose fragment is missing, or is there more than once. */
export function missingFragment(spread, project) {
  const name = spread.name.value;
  const span = spanOf(spread);
  const candidates = project.candidates(spread);
  if (candidates.length) {
    return finding('fragment-ambiguous', `\`...${name}\` can mean ${candidates.length} fragments`,
      [wholePlace(span, 'which of them?'), ...candidates.map((node) => definitionPlace(node, 'this one'))],
      'A spread means the fragment of that name in its own file, else the only one of that name in all files.',
      ['give the fragments different names']);
  }
  const near = nearNames(name, project.fragmentsByName.keys());
  return finding('fragment-missing', `there is no fragment \`${name}\``, [wholePlace(span, 'no file defines it')],
    'Nobody knows what this spread stands for, so this query was not checked.',
    [near.length ? `did you mean ${near.map((one) => `\`...${one}\``).join(' or ')}?` : 'give the file that defines it too']);
}
