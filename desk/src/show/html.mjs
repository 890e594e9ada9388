/** Text as HTML. */

export function escape(text) {
  return String(text).replaceAll('&', '&amp;').replaceAll('<', '&lt;').replaceAll('>', '&gt;').replaceAll('"', '&quot;');
}

/** Escaped, with what stands in backquotes as code. */
export function inline(text) {
  return escape(text).replace(/`([^`]*)`/g, '<code translate="no">$1</code>');
}

export function capital(text) {
  return text.charAt(0).toUpperCase() + text.slice(1);
}
