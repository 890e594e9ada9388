/** File patterns: `*` and `?` within one folder, `**` through all folders below, `{a,b}` for one or the other. */

const SPECIAL = /[*?{]/;

export function isPattern(name) {
  return SPECIAL.test(name);
}

/** A pattern in two parts: the folder before its first special character, and what must match below that folder. */
export function parts(pattern) {
  const fixed = pattern.slice(0, pattern.search(SPECIAL));
  const folder = fixed.slice(0, fixed.lastIndexOf('/') + 1);
  return { folder, wanted: new RegExp(`^${source(pattern.slice(folder.length))}$`, 'u') };
}

function source(pattern) {
  return pattern.replace(/\*\*\/|\*\*|\*|\?|\{[^}]*\}|[.+^$()|[\]{}\\]/g, (part) => {
    if (part === '**/') return '(?:.*/)?';
    if (part === '**') return '.*';
    if (part === '*') return '[^/]*';
    if (part === '?') return '[^/]';
    if (part.length > 1) return `(?:${part.slice(1, -1).split(',').map(source).join('|')})`;
    return `\\${part}`;
  });
}
