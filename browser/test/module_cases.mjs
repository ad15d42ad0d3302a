#!/usr/bin/env node
// LAY=program node module_cases.mjs [--firefox] [DOCUMENT.json ..]
// Lays the documents of all cases and examples out by the module in a browser and by the program, and compares statuses and bytes: of
// `scratch`, of `hit` at a point, of `check` of a document with its layout, and of `check` of the report that the module's `run` writes.
// Status 1 where any differs.
import './help.mjs';
import { spawnSync } from 'node:child_process';
import { readdirSync, readFileSync } from 'node:fs';
import { relative } from 'node:path';
import { program } from './lay.mjs';
import { ModulePage } from './module.mjs';

const ROOT = new URL('../../', import.meta.url).pathname;
const SHOWN = 5, TOGETHER = 40;

const isDocument = file => /"nodes"/.test(readFileSync(file, 'latin1'));
function documents() {
  const folders = readdirSync(ROOT + 'crates').filter(name => /_cases$/.test(name)).map(name => `${ROOT}crates/${name}/data`);
  const files = [...folders, ROOT + 'examples'].flatMap(folder =>
    readdirSync(folder, { recursive: true }).filter(name => name.endsWith('.json')).map(name => `${folder}/${name}`));
  return files.sort();
}
function native(words, input) {
  const answer = spawnSync(program, words, { input, maxBuffer: 1 << 28, timeout: 120000 });
  if (answer.error) throw answer.error;
  return { status: answer.status, out: answer.stdout };
}
const isSame = (one, other) => one.status === other.status && one.out.equals(other.out);

// Compares one form of words over all documents; [how many are the same, how many there are].
async function compare(page, files, words, inputOf) {
  let same = 0;
  for (let from = 0; from < files.length; from += TOGETHER) {
    const part = files.slice(from, from + TOGETHER), inputs = part.map(inputOf);
    const answers = await page.calls(inputs.map(input => [words, input]));
    part.forEach((file, i) => {
      const wanted = native(words, inputs[i]);
      if (isSame(answers[i], wanted)) { same++; return; }
      console.log(`    ${relative(ROOT, file)}: ${words.join(' ')}: status ${answers[i].status} and ${wanted.status}, ` +
        `${answers[i].out.length} and ${wanted.out.length} bytes ${answers[i].said}`);
    });
  }
  console.log(`${words.join(' ')}: ${same} of ${files.length} documents with the same status and bytes`);
  return same === files.length;
}
// A document with its own layout as a report: the bytes of the document are those of the file.
const checkOf = file => Buffer.concat([Buffer.from('{"run": '), readFileSync(file),
  Buffer.from(`, "report": ${JSON.stringify(native(['scratch'], readFileSync(file)).out.toString())}}`)]);
// Reports of `run`, which may differ, are judged by the program.
async function judgeRuns(page, files) {
  let legal = 0;
  for (const file of files) {
    const input = readFileSync(file), report = (await page.call(['run', '--workers', '1'], input)).out.toString();
    const check = JSON.stringify({ run: JSON.parse(input), report });
    const [there, wanted] = [await page.call(['check'], check), native(['check'], check)];
    if (isSame(there, wanted) && wanted.out.toString() === 'yes\n') legal++;
    else console.log(`    ${relative(ROOT, file)}: check: ${there.out} and ${wanted.out}`.trimEnd());
  }
  console.log(`run: ${legal} of ${files.length} histories of documents with editors are legal`);
  return legal === files.length;
}

const words = process.argv.slice(2), given = words.filter(word => word !== '--firefox'), files = given.length ? given : documents();
const page = await ModulePage.start(words.includes('--firefox') ? 'firefox' : 'chromium');
try {
  const start = Date.now(), bytes = file => readFileSync(file);
  const edited = files.filter(file => isDocument(file) && /"editors"/.test(bytes(file)));
  const good = [await compare(page, files, ['scratch'], bytes), await compare(page, files, ['hit', '--x', '50', '--y', '30'], bytes),
    await compare(page, files, ['check'], checkOf), await judgeRuns(page, edited)];
  const verdict = good.every(Boolean) ? 'as the program' : 'OTHERWISE THAN THE PROGRAM';
  console.log(`the module in ${page.browser.version}: ${verdict}, ${Math.round((Date.now() - start) / 1000)} s`);
  process.exitCode = good.every(Boolean) ? 0 : 1;
} finally { await page.close(); }
