/** Fragments: kinds 5, 6 and 9. */
import { Kind } from '../graphql.mjs';
import { removal } from '../edits.mjs';
import { definitionName } from '../names.mjs';
import { spanOf } from '../text.mjs';
import { cycleFrom } from '../witness.mjs';
import { definitionPlace, wholePlace } from './places.mjs';

export function fragmentCycle({ a }, { packed, project, unit, mended }) {
  const node = packed.fragments[a];
  const spreads = cycleFrom(node, project, mended);
  const names = [node.name.value, ...spreads.map((spread) => `...${spread.name.value}`)];
  const insides = [definitionName(node), ...spreads.map((spread) => `fragment ${spread.name.value}`)];
  const label = (i) => (i === spreads.length - 1 ? 'and here it starts again' : 'leads on');
  return {
    title: `fragment \`${node.name.value}\` spreads itself${spreads.length > 1 ? ', through others' : ''}`,
    places: [definitionPlace(node, 'this fragment'), ...spreads.map((spread, i) => wholePlace(spanOf(spread), label(i), insides[i]))],
    sentence: `Written out, it would never end: ${names.join(' → ')}.`,
    ...openCycle(spreads, unit, project, mended),
  };
}

/** Takes out one spread of a cycle: one that leaves no empty braces, and after which the query still reaches all its fragments. */
function openCycle(spreads, unit, project, mended) {
  const [start] = unit.operations;
  const isAlone = (spread, i) => setOf(spread, project.target(spreads.at(i - 1)).selectionSet).selections.length === 1;
  const keepsAll = (spread) => !start || project.reach(start, new Set([...mended.keys(), spread])).size === unit.members.size;
  const spread = spreads.filter((one, i) => !isAlone(one, i) && keepsAll(one)).at(-1);
  if (!spread) return {};
  return {
    help: `take out \`...${spread.name.value}\` (${project.where(spanOf(spread))})`,
    fix: { edits: [removal(spread)], label: `Take out ...${spread.name.value}` },
    mend: [spread, true],
  };
}

/** The selection set that a spread stands in. */
function setOf(spread, set) {
  if (set.selections.includes(spread)) return set;
  const around = set.selections.find(({ loc }) => loc.start <= spread.loc.start && spread.loc.end <= loc.end);
  return setOf(spread, around.selectionSet);
}

export function fragmentChain({ a }, { packed }) {
  const node = packed.fragments[a];
  return {
    title: `over 100 fragments follow one another, from \`${node.name.value}\` on`,
    places: [definitionPlace(node, 'the first of them')],
    sentence: 'Each of them is spread in the one before. The check follows 100 of them.',
  };
}

export function fragmentUnused({ a }, { packed, project }) {
  const node = packed.fragments[a];
  const spreads = (one) => project.spreads(one).some((spread) => project.target(spread) === node);
  const by = project.definitions(Kind.FRAGMENT_DEFINITION).filter(spreads).map((one) => `\`${one.name.value}\``);
  return {
    title: `fragment \`${node.name.value}\` is used by no query`,
    places: [definitionPlace(node, by.length ? `only ${by.join(', ')} spreads it, and no query reaches that` : 'nothing spreads it')],
    sentence: `Either it is left over, or \`...${node.name.value}\` is missing where it was meant to be asked.`,
    help: `if it is left over, take it out (${project.where(spanOf(node))})`,
    fix: { edits: [removal(node)], label: `Take out fragment ${node.name.value}` },
    operations: [],
    mend: [node, true],
  };
}
