/**
 * The proved program `replay`, kept running. Cases go to its standard input, one line comes back for each, in the same order.
 * A case is `0, budget, scratch, n, n words`, all as little-endian words. A line is `kind operation a b used kept`.
 */
import { spawn } from 'node:child_process';
import { existsSync } from 'node:fs';
import { fileURLToPath } from 'node:url';
import { asBytes, rowCount, scratchNeeded } from './image.mjs';

const MOST_SCRATCH = 262144; // words that replay has room for
const MOST_WORDS = 65536;
export const MOST_BUDGET = 1_000_000;

/** The program is missing, it ended, or it gave a line that it never may give. */
export class EngineError extends Error {}

/** @typedef {{kind: number, operation: number, a: number, b: number, used: number}} Reply */

/** The command that starts the program: the one that the environment names, else the one built in this project. */
export function programCommand(environment = process.env) {
  const named = environment.PONYBLUSTER_REPLAY;
  if (named) {
    if (!existsSync(named)) throw new EngineError(`there is no program ${named} (the environment names it as PONYBLUSTER_REPLAY)`);
    return [named];
  }
  const built = fileURLToPath(new URL('../../crates/replay/out/replay', import.meta.url));
  if (!existsSync(built)) {
    throw new EngineError('the proved program replay is not built: desk/setup builds it (or `rt run </dev/null` in crates/replay)');
  }
  return [built];
}

export class Engine {
  /** @param {string[]} [command]  the program and its arguments */
  constructor(command = programCommand()) {
    this.command = command;
    this.waiting = []; // questions without an answer yet, oldest first
    this.rest = ''; // the start of a line that has not ended
  }

  /** The largest budget that the program has scratch for with this image. */
  static mostBudget(image) {
    return Math.max(0, Math.min(MOST_BUDGET, Math.floor((MOST_SCRATCH - scratchNeeded(image, 0)) / 8)));
  }

  static hasRoomFor(image) {
    return image.length <= MOST_WORDS && scratchNeeded(image, 0) <= MOST_SCRATCH;
  }

  /**
   * Asks the proved check about one image.
   * @param {Uint32Array} image
   * @param {number} budget
   * @param {number} [scratch]  words of scratch to lend
   * @returns {Promise<Reply>}
   */
  ask(image, budget, scratch = Math.min(scratchNeeded(image, budget), MOST_SCRATCH)) {
    if (this.broken) return Promise.reject(this.broken);
    if (!this.child) this.start();
    const head = new Uint32Array([0, budget, scratch, image.length]);
    return new Promise((resolve, reject) => {
      this.waiting.push({ resolve, reject });
      this.child.stdin.write(Buffer.concat([asBytes(head), asBytes(image)]));
    });
  }

  start() {
    const [program, ...words] = this.command;
    this.child = spawn(program, words, { stdio: ['pipe', 'pipe', 'inherit'] });
    this.child.stdout.setEncoding('latin1').on('data', (text) => this.take(text));
    this.child.on('error', (error) => this.fail(`could not be started (${error.code ?? error.message})`));
    this.child.on('close', (status, signal) => this.fail(`ended with ${signal ?? `status ${status}`}`));
    this.child.stdin.on('error', () => {}); // the event `close` follows
  }

  take(text) {
    const lines = (this.rest + text).split('\n');
    this.rest = lines.pop();
    for (const line of lines) {
      const numbers = /^\d+( \d+){5}$/.test(line) ? line.split(' ').map(Number) : [];
      const [kind, operation, a, b, used, kept] = numbers;
      if (kept !== 1 || !this.waiting.length) {
        this.fail(`gave the line "${line}"`);
        return;
      }
      this.waiting.shift().resolve({ kind, operation, a, b, used });
    }
  }

  /** From now on every question is refused with this reason. */
  fail(what) {
    if (this.stopped && !this.waiting.length) return;
    this.broken ??= new EngineError(`the proved program ${this.command.join(' ')} ${what}`);
    this.child.stdin.destroy();
    for (const { reject } of this.waiting.splice(0)) reject(this.broken);
  }

  stop() {
    this.stopped = true;
    this.child?.stdin.end();
  }
}
