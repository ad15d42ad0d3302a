// The program that reports are asked of: LAY, else the proved one of `rt run`, else the unproved one of `tools/keep_unproved`.
import { execFile, spawnSync } from 'node:child_process';
import { existsSync, readFileSync } from 'node:fs';

const here = path => new URL(path, import.meta.url);
const built = ['lay', 'lay_unproved'].map(name => here(`../../crates/lay/out/${name}`).pathname);
export const program = process.env.LAY || built.find(path => existsSync(path)) || built[0];
export const source = readFileSync(here('../export.js'), 'utf8');
const LIMITS = { maxBuffer: 1 << 28, timeout: Math.max(120, Number(process.env.LAY_SECONDS || 0)) * 1000 };

export function layOut(run) {
  const answer = spawnSync(program, ['scratch'], { input: JSON.stringify(run), ...LIMITS });
  if (answer.error) throw answer.error;
  return answer.stdout.toString();
}
// The same beside other work: a refusal is an answer, and no failure.
export function layingOut(run) {
  return new Promise((done, fail) => {
    const child = execFile(program, ['scratch'], LIMITS, (error, stdout) => {
      if (error && typeof error.code !== 'number') fail(error);
      else if (error && !stdout) fail(new Error(`lay ended with status ${error.code} and no answer`));
      else done(stdout);
    });
    child.stdin.on('error', () => {});
    child.stdin.end(JSON.stringify(run));
  });
}
// Evaluates the exporter in a page of either browser.
export const exporting = options => `(() => { window.layExportSettings = { manual: true };
${source}
return layExport(${JSON.stringify(options)}); })()`;
