/** How definitions are named in messages, and which names are near to one that is missing. */
import { Kind } from './graphql.mjs';

export function operationName(node) {
  return node.name ? `${node.operation} ${node.name.value}` : `the ${node.operation} without a name`;
}

export function definitionName(node) {
  return node.kind === Kind.FRAGMENT_DEFINITION ? `fragment ${node.name.value}` : operationName(node);
}

/** At most three names that differ from this one by few letters, the nearest first. */
export function nearNames(name, names) {
  const limit = Math.floor(name.length * 0.4) + 1;
  const near = [];
  for (const other of names) {
    if (Math.abs(other.length - name.length) > limit) continue;
    const far = distance(name.toLowerCase(), other.toLowerCase());
    if (far <= limit) near.push({ other, far });
  }
  return near.sort((x, y) => x.far - y.far).slice(0, 3).map(({ other }) => other);
}

/** How many letters must be put in, taken out or changed to get from one name to the other. */
function distance(x, y) {
  let row = Array.from({ length: y.length + 1 }, (_, i) => i);
  for (let i = 1; i <= x.length; i += 1) {
    const next = [i];
    for (let j = 1; j <= y.length; j += 1) {
      next[j] = Math.min(next[j - 1] + 1, row[j] + 1, row[j - 1] + (x[i - 1] === y[j - 1] ? 0 : 1));
    }
    row = next;
  }
  return row[y.length];
}
