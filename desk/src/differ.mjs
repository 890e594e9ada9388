/**
 * What differs between two fields that have the same response name, found in their texts. Values are compared as the check compares them:
 * ints and floats as written, strings by value, lists in order, objects in any order.
 */
import { Kind, getNamedType, getNullableType, isCompositeType, isListType, isNonNullType, print } from './graphql.mjs';

/**
 * @typedef {object} Difference
 * @property {string} what  the argument, or where in it: `side`, `by.range[1]`
 * @property {string | null} first  as written, null where it is left out
 * @property {string | null} second
 * @property {object} [firstNode]  what to underline
 * @property {object} [secondNode]
 * @property {string} [remark]  what the eye does not see
 * @property {[string, string]} [codes]  the differing characters, where both values look the same
 */

/** Every argument in which two fields differ: those of the first field in order, then those that only the second field has. */
export function argumentDifferences(first, second) {
  return memberDifferences(first.arguments ?? [], second.arguments ?? [], '');
}

function memberDifferences(first, second, prefix) {
  const named = (nodes, name) => nodes.find((node) => node.name.value === name);
  const out = [];
  for (const node of first) out.push(...differences(prefix + node.name.value, node, named(second, node.name.value)));
  for (const node of second) {
    if (!named(first, node.name.value)) out.push(...differences(prefix + node.name.value, undefined, node));
  }
  return out;
}

function differences(what, first, second) {
  if (first && second) return valueDifferences(what, first.value, second.value, first, second);
  const isNull = (first ?? second).value.kind === Kind.NULL;
  const written = (member) => (member ? print(member.value) : null);
  return [{ what, first: written(first), second: written(second), firstNode: first, secondNode: second,
    ...(isNull && { remark: 'null is a value: it is not the same as leaving the argument out' }) }];
}

function valueDifferences(what, x, y, xNode = x, yNode = y) {
  if (x.kind === Kind.OBJECT && y.kind === Kind.OBJECT) return memberDifferences(x.fields, y.fields, `${what}.`);
  const difference = { what, first: print(x), second: print(y), firstNode: xNode, secondNode: yNode };
  if (x.kind === Kind.LIST && y.kind === Kind.LIST) {
    if (x.values.length !== y.values.length) return [{ ...difference, remark: `${x.values.length} and ${y.values.length} members` }];
    return x.values.flatMap((value, i) => valueDifferences(`${what}[${i}]`, value, y.values[i]));
  }
  if (x.kind === y.kind && atomOf(x) === atomOf(y)) return [];
  return [{ ...difference, ...lookAlike(x, y) }];
}

function atomOf(node) {
  if (node.kind === Kind.VARIABLE) return node.name.value;
  return node.kind === Kind.NULL ? null : node.value;
}

/** Two values that look the same to a reader, or mean the same to him, and why they are not the same to the rule. */
function lookAlike(x, y) {
  const isNumber = ({ kind }) => kind === Kind.INT || kind === Kind.FLOAT;
  if (x.kind === Kind.STRING && y.kind === Kind.STRING) return lookAlikeTexts(x.value, y.value);
  if (isNumber(x) && isNumber(y) && Number(x.value) === Number(y.value)) {
    return { remark: 'the same number, written in two ways: the rule compares what is written' };
  }
  if (x.kind !== y.kind && [x, y].some(({ kind }) => kind === Kind.VARIABLE)) {
    return { remark: 'a variable can have any value, so it is not the same as a written value' };
  }
  return x.kind !== y.kind && String(atomOf(x)) === String(atomOf(y)) ? { remark: 'one is in quotes, the other is not' } : {};
}

function lookAlikeTexts(x, y) {
  const seen = (text) => text.normalize('NFKC').replace(/[\u200b-\u200f\u2060\ufeff]/g, '').replace(/\s+/g, ' ').trim();
  if (seen(x) !== seen(y)) return {};
  const codes = [codePoints(x, y), codePoints(y, x)];
  return { codes, remark: `they look the same, but one has ${codes[0]} where the other has ${codes[1]}` };
}

/** The characters in which a text differs from another one, as U+1EB9. */
function codePoints(text, other) {
  const [mine, theirs] = [[...text], [...other]];
  const least = Math.min(mine.length, theirs.length);
  let start = 0;
  while (start < least && mine[start] === theirs[start]) start += 1;
  let end = 0;
  while (end < least - start && mine.at(-1 - end) === theirs.at(-1 - end)) end += 1;
  const part = mine.slice(start, mine.length - end).slice(0, 6);
  return part.map((c) => `U+${c.codePointAt(0).toString(16).toUpperCase().padStart(4, '0')}`).join(' ') || 'nothing';
}

/** Why two types cannot stand under one name in the answer, or undefined where they can. */
export function shapeDifference(first, second) {
  const [x, y] = [getNamedType(first), getNamedType(second)];
  if (isCompositeType(x) !== isCompositeType(y)) return 'one is a single value, the other has fields of its own';
  if (!isCompositeType(x) && x !== y) return `\`${x}\` is not \`${y}\``;
  return wrapperDifference(first, second);
}

function wrapperDifference(first, second) {
  const [x, y] = [getNullableType(first), getNullableType(second)];
  if (isListType(x) !== isListType(y)) return 'one is a list, the other is not';
  if (isNonNullType(first) !== isNonNullType(second)) return 'one can be null, the other cannot';
  return isListType(x) ? wrapperDifference(x.ofType, y.ofType) : undefined;
}
