/** Variables: kinds 10 to 13. */
import { GraphQLNonNull, Kind, getNullableType, isInputType, isListType, isNonNullType } from '../graphql.mjs';
import { variableRemoval } from '../edits.mjs';
import { definitionName } from '../names.mjs';
import { spanOf } from '../text.mjs';
import { definitionAt, wholePlace } from './places.mjs';

function variablePlace(row, label, unit) {
  return wholePlace(spanOf(row.node), label, definitionName(unit.operations[0]));
}

/** Takes a variable out. */
function leavingOut(node) {
  return {
    help: `take out \`$${node.variable.name.value}\``,
    fix: { edits: [variableRemoval(node)], label: `Take out $${node.variable.name.value}` },
    mend: [node, true],
  };
}

/** Gives a variable another type. */
function defining(node, type) {
  const name = node.variable.name.value;
  return {
    help: `define it as \`$${name}: ${type}\``,
    fix: { edits: [{ span: spanOf(node.type), text: type }], label: `Define $${name} as ${type}` },
    mend: [node, type],
  };
}

export function variableType({ a }, { packed, unit }) {
  const { node, type } = packed.variables[a];
  const name = node.variable.name.value;
  const isIt = (value) => value.kind === Kind.VARIABLE && value.name.value === name;
  const argument = packed.arguments.find((row) => isIt(row.node.value) && isInputType(row.type));
  const isUsed = packed.values.some(isIt);
  return {
    title: `\`$${name}\` cannot be a \`${type}\``,
    places: [{ ...variablePlace(packed.variables[a], 'the service answers with this and does not take it', unit), marks: [spanOf(node.type)] }],
    sentence: 'A variable carries a value to the service: a number, a text, an enum value or an input object.',
    ...(argument ? defining(node, String(argument.type)) : isUsed ? {} : leavingOut(node)),
  };
}

export function variableTwice({ a }, { packed, unit }) {
  const row = packed.variables[a];
  const name = row.node.variable.name.value;
  const earlier = packed.variables.find(({ node }) => node.variable.name.value === name);
  return {
    title: `\`$${name}\` is defined twice`,
    places: [variablePlace(row, 'a second time', unit), variablePlace(earlier, 'first defined here', unit)],
    sentence: 'A variable has one type and one default. Nobody can say which of these two counts.',
    ...leavingOut(row.node),
    help: `take out the second \`$${name}\``,
  };
}

export function variableUnused({ a }, { packed, unit }) {
  const row = packed.variables[a];
  const name = row.node.variable.name.value;
  return {
    title: `\`$${name}\` is not used`,
    places: [variablePlace(row, 'nothing that this query reaches uses it', unit)],
    sentence: 'The caller is asked for a value that changes nothing in the answer. Perhaps a value was written out in its place.',
    ...leavingOut(row.node),
  };
}

export function variableMisfit({ a }, { packed, unit }) {
  const row = packed.arguments[a];
  const name = row.node.value.name.value;
  const variable = packed.variables.find(({ node }) => node.variable.name.value === name);
  const onlyNull = isNonNullType(row.type) && !isNonNullType(variable.type) && String(getNullableType(row.type)) === String(variable.type);
  const wanted = String(onlyNull ? new GraphQLNonNull(variable.type) : row.type);
  return {
    title: `\`$${name}\` does not fit the argument \`${row.node.name.value}\``,
    places: [
      { ...wholePlace(spanOf(row.node), `this takes \`${row.type}\``, definitionAt(row.node, unit)), type: String(row.type) },
      { ...variablePlace(variable, `\`$${name}\` is \`${variable.type}\``, unit), type: String(variable.type) },
    ],
    differences: [{ what: 'type', first: String(row.type), second: String(variable.type) }],
    sentence: misfitSentence(name, row.type, variable.type, onlyNull),
    ...defining(variable.node, wanted),
  };
}

function misfitSentence(name, place, given, onlyNull) {
  if (onlyNull) return `\`$${name}\` may be null or left out, and this argument must have a value.`;
  if (isListType(getNullableType(place)) && !isListType(getNullableType(given))) return `\`$${name}\` is one value, and this argument takes a list.`;
  return `\`$${name}\` may have a value that this argument does not take.`;
}
