#!/usr/bin/env node
/** Writes what the desk says of each case again: node desk/stored/store_messages.mjs. Read the difference before you commit it. */
import { mkdirSync, writeFileSync } from 'node:fs';
import { Engine } from '../src/engine.mjs';
import { CASES, messageFile } from './cases.mjs';
import { message } from './message.mjs';

const engine = new Engine();
mkdirSync(new URL('messages', import.meta.url), { recursive: true });
for (const one of CASES) writeFileSync(new URL(messageFile(one), import.meta.url), await message(one, engine));
engine.stop();
