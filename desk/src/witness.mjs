/**
 * How two fields that conflict are reached. The check names two rows; a reader wants the way to them. A way is a pair of chains of fields that
 * start at the operation and have the same response names level by level. The shortest pair is found. Nothing here is proved: it explains only.
 */
import { Kind, isObjectType } from './graphql.mjs';

const MOST_PAIRS = 1_000_000; // pairs of fields to look at; past them the way is left out

/**
 * @typedef {object} Way
 * @property {string[]} path  response names from the operation down
 * @property {object[]} first  the spreads and inline fragments on the first chain
 * @property {object[]} second
 */

/**
 * @param {import('./pack.mjs').Packed} packed
 * @param {number} operation  its set has the same number
 * @param {number} a  the row of the first field
 * @param {number} b  the row of the second field
 * @param {boolean} meeting  whether the parents must be able to meet at each level (kinds 15 and 16) or need not (kind 14)
 * @returns {Way | undefined}
 */
export function witness(packed, operation, a, b, meeting) {
  const fieldsOf = expander(packed);
  const waiting = [{ x: operation, y: operation, path: [], first: [], second: [] }];
  const met = new Set();
  let pairs = 0;
  for (const { x, y, path, first, second } of waiting) { // grows while it is walked
    const others = fieldsOf(y);
    for (const [name, group] of fieldsOf(x)) {
      for (const p of group) {
        for (const q of others.get(name) ?? []) {
          pairs += 1;
          if (pairs > MOST_PAIRS) return undefined;
          const [left, right] = [packed.selections[p.row], packed.selections[q.row]];
          if (meeting && !mayMeet(left.parent, right.parent)) continue;
          const next = () => ({ path: [...path, name], first: [...first, ...p.chain], second: [...second, ...q.chain] });
          if (p.row === a && q.row === b) return next();
          const key = `${left.own} ${right.own}`;
          if (left.own === undefined || right.own === undefined || met.has(key)) continue;
          met.add(key);
          waiting.push({ ...next(), x: left.own, y: right.own });
        }
      }
    }
  }
  return undefined;
}

/** Whether one value can have both types: they are the same, or one of them is an interface or a union. */
function mayMeet(x, y) {
  return x === y || !isObjectType(x) || !isObjectType(y);
}

/** The fields of a set by response name, with spreads and inline fragments opened; each field with those that lead to it. */
function expander(packed) {
  const known = new Map();
  return (set) => {
    if (!known.has(set)) known.set(set, expanded(packed, set));
    return known.get(set);
  };
}

function expanded(packed, set) {
  const groups = new Map();
  const queue = [{ set, chain: [] }];
  const met = new Set([set]);
  for (const { set: at, chain } of queue) { // grows while it is walked
    const { first, count } = packed.sets[at];
    for (let row = first; row < first + count; row += 1) {
      const { node, own, response } = packed.selections[row];
      if (node.kind === Kind.FIELD) {
        if (!groups.has(response)) groups.set(response, []);
        groups.get(response).push({ row, chain });
      } else if (!met.has(own)) {
        met.add(own);
        queue.push({ set: own, chain: [...chain, node] });
      }
    }
  }
  return groups;
}

/** The spreads that lead from a fragment back to itself by the shortest way, `without` some that are taken out already. */
export function cycleFrom(fragment, project, without) {
  const waiting = [{ at: fragment, chain: [] }];
  const met = new Set();
  for (const { at, chain } of waiting) { // grows while it is walked
    for (const spread of project.spreads(at)) {
      if (without.has(spread)) continue;
      const next = project.target(spread);
      if (next === fragment) return [...chain, spread];
      if (!next || met.has(next)) continue;
      met.add(next);
      waiting.push({ at: next, chain: [...chain, spread] });
    }
  }
  return [];
}
