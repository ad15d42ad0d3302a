#!/usr/bin/env node
// node bookmarklet.mjs > bookmarklet.txt: export.js as one `javascript:` address, without whole-line comments and indentation.
import './test/help.mjs';
import { readFileSync } from 'node:fs';
const lines = readFileSync(new URL('export.js', import.meta.url), 'utf8').split('\n');
const text = lines.map(line => line.trim()).filter(line => line && !line.startsWith('//')).join('\n');
process.stdout.write('javascript:' + encodeURIComponent(`void ${text}`));
