/** Two fields that are stored under the same name, kinds 14 to 16: how each is reached, what differs, and a name that is free. */
import { Kind, print } from '../graphql.mjs';
import { argumentDifferences, shapeDifference } from '../differ.mjs';
import { definitionName } from '../names.mjs';
import { definitionSpan, headSpan, spanOf } from '../text.mjs';
import { witness } from '../witness.mjs';

export function conflict(reply, { packed, project, uses, unit }) {
  const rows = [packed.selections[reply.a], packed.selections[reply.b]];
  const definitions = rows.map(({ set }) => packed.sets[set].definition);
  const [{ response }] = rows;
  const differences = differencesOf(reply.kind, ...rows);
  const way = witness(packed, reply.operation, reply.a, reply.b, reply.kind !== 14);
  const chains = way && [way.first, way.second];
  const places = rows.map((row, i) => ({
    span: headSpan(row.node),
    name: spanOf(row.node.alias ?? row.node.name),
    marks: marksOf(row.node, differences, i),
    label: labelOf(reply.kind, row, differences, i),
    inside: definitionName(definitions[i]),
    reached: chains && reachedBy(unit.operations[reply.operation], chains[i]),
    coordinate: coordinateOf(row),
    type: String(row.type),
  }));
  const changed = uses(definitions[0]) < uses(definitions[1]) ? 0 : 1; // rename the field that fewer queries have
  return {
    places,
    path: way?.path ?? [response],
    differences,
    title: titleOf(reply.kind, response, rows),
    sentence: sentenceOf(reply.kind, response, rows),
    hints: differences.some(({ codes }) => codes) ? ['if the same letters are meant, write the same characters in both'] : [],
    ...renaming(rows[changed].node, freeName(response, rows[changed].node, differences, changed, packed), places[changed], project),
  };
}

function titleOf(kind, response, [first, second]) {
  if (kind === 15) return `two different fields are stored as \`${response}\``;
  if (kind === 16) return `two fields are stored as \`${response}\`, with different arguments`;
  const different = first.node.name.value === second.node.name.value ? '' : 'different ';
  return `two ${different}fields are stored as \`${response}\`, with types of different shape`;
}

function sentenceOf(kind, response, [first, second]) {
  if (kind !== 14) return `Both are stored as \`${response}\`: there is room for one answer only, and the other one is lost.`;
  return `Both are stored as \`${response}\`, and ${shapeDifference(first.type, second.type)}: `
    + `a tool that reads \`${response}\` cannot know what it gets.`;
}

function differencesOf(kind, first, second) {
  if (kind === 16) return argumentDifferences(first.node, second.node);
  if (kind === 15) return [{ what: 'field', first: first.node.name.value, second: second.node.name.value }];
  return [{ what: 'type', first: String(first.type), second: String(second.type), remark: shapeDifference(first.type, second.type) }];
}

/** The arguments that differ; where a side has none of them, the field's name. */
function marksOf(node, differences, side) {
  const nodes = differences.map((one) => (side ? one.secondNode : one.firstNode)).filter(Boolean);
  return (nodes.length ? nodes : [node.name]).map(spanOf);
}

function labelOf(kind, row, differences, side) {
  if (kind === 14) return `\`${coordinateOf(row)}\` is \`${row.type}\``;
  if (kind === 15) return `this is \`${coordinateOf(row)}\``;
  const shown = differences.slice(0, 3).map((one) => written(one.what, side ? one.second : one.first));
  return `this asks with ${shown.join(', ')}${differences.length > 3 ? ', ..' : ''}`;
}

/** An argument as it is written in messages. */
export function written(what, value) {
  return value === null ? `no \`${what}\`` : `\`${what}: ${value}\``;
}

function coordinateOf({ parent, node }) {
  return `${parent.name}.${node.name.value}`;
}

/** The operation, and the spreads and type conditions that lead from it to a field. */
function reachedBy(operation, chain) {
  const steps = [{ text: operation.name?.value ?? operation.operation, span: definitionSpan(operation) }];
  for (const node of chain) {
    if (node.kind === Kind.FRAGMENT_SPREAD) steps.push({ text: `...${node.name.value}`, span: spanOf(node) });
    else if (node.typeCondition) steps.push({ text: `... on ${node.typeCondition.name.value}`, span: spanOf(node.typeCondition) });
  }
  return steps;
}

/** Stores one of the two fields under another name. */
function renaming(node, name, place, project) {
  const bare = print({ ...node, alias: undefined, selectionSet: undefined });
  const isOwnName = name === node.name.value;
  const span = { file: node.loc.source.name, start: node.loc.start, end: node.name.loc.start };
  return {
    help: `if both are wanted, store one of them under another name: write \`${isOwnName ? bare : `${name}: ${bare}`}\` `
      + `in ${place.inside} (${project.where(place.span)})`,
    fix: { edits: [{ span, text: isOwnName ? '' : `${name}: ` }], label: `Store this field as ${name}` },
    mend: [node, name],
  };
}

/** A response name that no field of the image has: made of what differs (`posBelow`) where that gives a name, else of a number. */
function freeName(response, node, differences, side, packed) {
  const taken = new Set(packed.selections.map((row) => row.response));
  const [difference] = differences;
  const value = (side ? difference?.second : difference?.first) ?? '';
  const tries = [];
  if (difference?.what === 'field') tries.push(node.name.value);
  if (difference?.what !== 'type' && /^"?[A-Za-z][A-Za-z0-9_ -]{0,15}"?$/.test(value)) tries.push(response + camel(value.replaceAll('"', '')));
  for (let i = 2; i < packed.selections.length + 3; i += 1) tries.push(`${response}${i}`);
  return tries.find((name) => !taken.has(name));
}

function camel(text) {
  return text.split(/[ _-]+/).map((part) => part.charAt(0).toUpperCase() + part.slice(1).toLowerCase()).join('');
}
