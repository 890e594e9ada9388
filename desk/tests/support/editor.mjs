/** An editor for tests: starts the language server, sends it messages, and keeps what the server shows. */
import assert from 'node:assert/strict';
import { spawn } from 'node:child_process';
import path from 'node:path';
import { pathToFileURL } from 'node:url';
import { onMessages, sender } from '../../src/lsp/rpc.mjs';
import { COMMAND } from './command.mjs';

export class Editor {
  constructor(root) {
    this.root = root;
    this.child = spawn(COMMAND, ['lsp'], { cwd: root, stdio: ['pipe', 'pipe', 'inherit'] });
    this.closed = new Promise((resolve) => { this.child.on('close', resolve); });
    this.send = sender(this.child.stdin);
    this.waiting = new Map();
    this.hopes = [];
    onMessages(this.child.stdout, (message) => this.take(message));
  }

  take(message) {
    if (message.id !== undefined) this.waiting.get(message.id)(message);
    else this.hopes = this.hopes.filter((hope) => !hope(message));
  }

  async start() {
    const answer = await this.request('initialize', { processId: process.pid, rootUri: pathToFileURL(this.root).href, capabilities: {} });
    this.notify('initialized', {});
    return answer;
  }

  /** The result of a request. */
  async request(method, params) {
    const id = this.waiting.size + 1;
    const answered = new Promise((resolve) => { this.waiting.set(id, resolve); });
    this.send({ id, method, params });
    const { result, error } = await answered;
    return error ?? result;
  }

  notify(method, params) {
    this.send({ method, params });
  }

  /** The diagnostics that are next shown in a file. */
  next(file) {
    return this.hope('textDocument/publishDiagnostics', ({ uri }) => uri === this.uri(file)).then(({ diagnostics }) => diagnostics);
  }

  hope(wanted, fits = () => true) {
    return new Promise((resolve) => {
      this.hopes.push(({ method, params }) => method === wanted && fits(params) && (resolve(params), true));
    });
  }

  open(file, text) {
    this.notify('textDocument/didOpen', { textDocument: { uri: this.uri(file), languageId: 'graphql', version: 1, text } });
  }

  change(file, text) {
    this.notify('textDocument/didChange', { textDocument: { uri: this.uri(file), version: 2 }, contentChanges: [{ text }] });
  }

  uri(file) {
    return pathToFileURL(path.join(this.root, file)).href;
  }

  /** Ends the server as an editor does; its exit status. */
  async quit() {
    await this.request('shutdown');
    this.notify('exit');
    return this.closed;
  }
}

/** Starts an editor, works with it and ends it; a server that is left over is ended too. */
export async function withEditor(root, work) {
  const editor = new Editor(root);
  try {
    await work(editor, await editor.start());
    assert.equal(await editor.quit(), 0);
  } finally {
    editor.child.kill();
  }
}

/** A text with an edit of the server made in it. */
export function applied(text, { range, newText }) {
  const lines = text.split('\n');
  const at = ({ line, character }) => lines.slice(0, line).reduce((sum, one) => sum + one.length + 1, character);
  return text.slice(0, at(range.start)) + newText + text.slice(at(range.end));
}
