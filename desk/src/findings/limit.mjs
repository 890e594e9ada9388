/** Limits and budget, and what is a fault of the tool: kinds 1 to 4, 7, 8, 17 and 18. */
import { TABLES } from '../image.mjs';
import { KINDS } from '../kinds.mjs';
import { definitionName } from '../names.mjs';
import { definitionAt, definitionPlace, shownSpan, wholePlace } from './places.mjs';

/** The definition that a finding about a whole unit is shown at. */
function headOf({ operations, fragments }) {
  return operations[0] ?? fragments[0];
}

function aboutUnit({ unit }, title, sentence) {
  const node = headOf(unit);
  const label = unit.operations.length ? 'this query' : 'this fragment';
  return { title: `${definitionName(node)} ${title}`, places: [definitionPlace(node, label)], sentence };
}

function number(n) {
  return n.toLocaleString('en');
}

export function tooDeep(_, about) {
  return aboutUnit(about, 'goes over 500 steps deep',
    'Each field, spread and inline fragment on the way down is a step. The check follows 500 of them.');
}

export function tooNested(_, about) {
  return aboutUnit(about, 'nests over 128 levels of fields', 'The levels are counted with all fragments written out. The check follows 128 of them.');
}

/** `budget` is what was wanted, `asked` what the program was given, `needed` what is enough, where a second question found that. */
export function budget(_, about) {
  const room = about.budget > about.asked ? ` For this query the program has room for no more than ${number(about.asked)} units.` : '';
  const made = aboutUnit(about, `was not checked to the end: its budget of ${number(about.asked)} units of work ran out`,
    `Nothing is known of what was left, so the query counts as refused.${room}`);
  if (about.needed === undefined) return made;
  return { ...made, help: `give the check a larger budget, \`--budget ${about.needed}\`, and let the service give the same`, tried: true };
}

/** Kind 18: the query was checked here all the same, unless the program has no room for it either (`unchecked`). */
export function doorSize({ a }, about) {
  const made = aboutUnit(about, `is too large for the door: packed, it has ${number(a)} bytes`, about.unchecked
    ? 'It could not be checked here either, so it counts as refused.'
    : 'It was checked here. But the door for bytes, `check_query`, takes at most 32,768: the host must call `check_query_lent`.');
  return { ...made, severity: about.unchecked ? 'error' : 'warning' };
}

/** Kind 1: an image of this packer has a wrong header only where a table has too many rows. */
export function header(reply, about) {
  const rows = (table) => about.packed.words[2 + 2 * table];
  const full = TABLES.findIndex(([, , most], table) => rows(table) > most);
  if (full < 0) return toolFault(reply, about);
  const [table, , most] = TABLES[full];
  return aboutUnit(about, `has ${number(rows(full))} ${table}, and ${number(most)} are allowed`,
    'They are counted with all fragments that the query reaches. Nothing more is known, so it counts as refused.');
}

/** Kind 4: an image of this packer breaks a rule only where a field or a value is too large. */
export function tableRule({ a, b }, { packed, unit }) {
  const [table] = TABLES[a] ?? ['tables'];
  const row = packed[table]?.[b];
  const node = row?.node ?? (row?.loc ? row : headOf(unit));
  const tooMany = table === 'selections' && (node.arguments?.length ?? 0) > 64;
  return {
    title: tooMany ? `\`${node.name.value}\` has ${node.arguments.length} arguments, and 64 are allowed`
      : `this goes over a limit of the check (${table}, row ${b})`,
    places: [wholePlace(shownSpan(node), 'here', definitionAt(node, unit))],
    sentence: 'A field has at most 64 arguments, an object at most 256 members, and values nest at most 64 levels.',
  };
}

export function toolFault(reply, { unit }) {
  const { short = 'The check gave an answer that this tool does not know' } = KINDS[reply.kind] ?? {};
  return {
    title: short.charAt(0).toLowerCase() + short.slice(1),
    places: [definitionPlace(headOf(unit), 'while this was checked')],
    sentence: `This is a fault of the tool, not of the query (its reply: ${Object.values(reply).join(' ')}).`,
    hints: ['please report it, with the query'],
  };
}
