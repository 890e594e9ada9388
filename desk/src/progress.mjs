/** Says on standard error how far a long run is: nothing in the first second, then one line that is written over on a terminal. */

const QUIET = 1000; // milliseconds before the first word
const PAUSE = { terminal: 100, file: 10_000 };

/**
 * @param {{write: (text: string) => void, isTTY?: boolean}} stream
 * @param {() => number} [clock]  milliseconds
 */
export function progress(stream, clock = Date.now) {
  const start = clock();
  let last = stream.isTTY ? 0 : start;
  let shown = false;
  return {
    /** As in: checked 1,200 of 10,000 queries. */
    tell(what, done, all, things) {
      const now = clock();
      const pause = stream.isTTY ? PAUSE.terminal : PAUSE.file;
      if (now - start < QUIET || now - last < pause || done === all) return;
      last = now;
      shown = true;
      const line = `${what} ${done.toLocaleString('en')} of ${all.toLocaleString('en')} ${things}`;
      stream.write(stream.isTTY ? `\r\x1b[K${line}` : `${line}\n`);
    },
    end() {
      if (shown && stream.isTTY) stream.write('\r\x1b[K');
      shown = false;
    },
  };
}
