/** Messages of a language server: JSON, each with its Content-Length before it. */

/**
 * @param {NodeJS.ReadableStream} input
 * @param {(message: any) => void} take
 */
export function onMessages(input, take) {
  let held = Buffer.alloc(0);
  input.on('data', (chunk) => {
    held = Buffer.concat([held, chunk]);
    for (;;) {
      const end = held.indexOf('\r\n\r\n');
      if (end < 0) return;
      const length = Number(/content-length: *(\d+)/i.exec(held.toString('latin1', 0, end))?.[1] ?? 0);
      if (held.length < end + 4 + length) return;
      const body = held.toString('utf8', end + 4, end + 4 + length);
      held = held.subarray(end + 4 + length);
      const message = parsed(body);
      if (message) take(message);
    }
  });
}

/** What is not JSON is passed over: there is nobody to answer. */
function parsed(body) {
  try {
    return JSON.parse(body);
  } catch {
    return undefined;
  }
}

/** @param {NodeJS.WritableStream} output */
export function sender(output) {
  return (message) => {
    const body = Buffer.from(JSON.stringify({ jsonrpc: '2.0', ...message }));
    output.write(Buffer.concat([Buffer.from(`Content-Length: ${body.length}\r\n\r\n`), body]));
  };
}
