/** Images of edition 1: the numbers in their rows, and how tables become words and bytes. */

export const NONE = 0xffffffff;

export const TYPE = { scalar: 0, object: 1, interface: 2, union: 3, enum: 4, input: 5 };
export const REFERENCE = { named: 0, nonNull: 1, list: 2, nonNullList: 3 };
export const SELECTION = { field: 0, spread: 1, inline: 2 };
export const VALUE = { null: 0, boolean: 1, int: 2, float: 3, string: 4, enum: 5, variable: 6, list: 7, object: 8 };

/** Each table in the order of the image: name, words in a row, most rows. */
export const TABLES = /** @type {const} */ ([
  ['types', 2, 4096], ['references', 2, 8192], ['operations', 4, 64], ['fragments', 2, 512], ['sets', 3, 4096],
  ['selections', 9, 8192], ['arguments', 3, 8192], ['values', 4, 16384], ['variables', 3, 1024],
]);

const EDITION = 1;
const HEADER = 2 + 2 * TABLES.length;

/**
 * @param {Record<string, number[][]>} tables  rows by table name
 * @returns {Uint32Array}
 */
export function words(tables) {
  const total = TABLES.reduce((sum, [name, width]) => sum + width * tables[name].length, HEADER);
  const out = new Uint32Array(total);
  out[0] = EDITION;
  out[1] = total;
  let at = HEADER;
  TABLES.forEach(([name, width], table) => {
    out[2 + 2 * table] = tables[name].length;
    out[3 + 2 * table] = at;
    for (const row of tables[name]) {
      out.set(row, at);
      at += width;
    }
  });
  return out;
}

/** The rows of all tables together. */
export function rowCount(image) {
  return TABLES.reduce((sum, _, table) => sum + image[2 + 2 * table], 0);
}

/** How many words of scratch a check of this image needs with this budget. */
export function scratchNeeded(image, budget) {
  return 8 * budget + 16 * rowCount(image) + 4096;
}

/** Words as bytes: four for each word, the low byte first. */
export function asBytes(image) {
  const bytes = Buffer.alloc(4 * image.length);
  image.forEach((word, i) => bytes.writeUInt32LE(word, 4 * i));
  return bytes;
}
