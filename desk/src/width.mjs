/** How many columns of a terminal a text takes: one for a letter with all its marks (ẹ́ is one), two for a wide letter. */

const graphemes = new Intl.Segmenter(undefined, { granularity: 'grapheme' });
const WIDE = /^[\u1100-\u115f\u2e80-\ua4cf\uac00-\ud7a3\uf900-\ufaff\ufe30-\ufe6f\uff00-\uff60\uffe0-\uffe6]|^\p{Extended_Pictographic}/u;
const EMPTY = /^(?:\p{Mark}|[\u200b-\u200d\ufeff])+$/u;

export function displayWidth(text) {
  if (/^[\x20-\x7e]*$/.test(text)) return text.length;
  let width = 0;
  for (const { segment } of graphemes.segment(text)) {
    if (EMPTY.test(segment)) continue;
    width += WIDE.test(segment) ? 2 : 1;
  }
  return width;
}
