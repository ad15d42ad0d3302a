// The words of the command.
import { availableParallelism } from 'node:os';

export const USAGE = `browser/judge_page PAGE.html .. [options]        judges pages, and all pages of folders
browser/judge_page --reftest TEST.html REFERENCE.html [--mismatch] [options]    says whether \`lay\` lays both out alike
browser/judge_page --reftest TEST.html .. [options]               the same of tests that name their references, and of folders of them
browser/judge_page --join LINES.jsonl .. [--out FOLDER]           puts the lines of several shards together

  --width W[,W ..]   the width of the page in px, or several (800)
  --height H         the height of the window in px (600)
  --browser NAME     chromium or firefox (chromium)
  --out FOLDER       writes a page, a picture, JSON, the document and the report of each page, and an index
  --differing        writes those of pages that differ alone
  --lines FILE       writes a line of JSON a page, or a pair of test and reference (FOLDER/pages.jsonl)
  --continue         keeps the lines of a run that ended early, and judges the pages that have none or failed
  --jobs N           judges N pages or pairs at a time (1)
  --shard I/N        takes every Nth page or pair, from the Ith on
  --list FILE        takes the pages that a file names too, one a line
  --program PATH     the program \`lay\` (LAY, or what is built in crates/lay/out)
  --network          lets the browser ask for addresses that begin with http
  --help             says this

The status is 0 where each block and each text of all pages stands where the browser has it, 1 where one differs or a page can't be
judged, 2 for wrong words.`;
const WITH_VALUE = ['width', 'height', 'browser', 'out', 'lines', 'jobs', 'shard', 'list', 'program'];
const ALONE = ['continue', 'differing', 'network', 'help', 'join', 'reftest', 'mismatch'];
const isWhole = (text, least, most) => /^\d{1,7}$/.test(text) && +text >= least && +text <= most;

// What is wrong with the words, or ''.
function faultOf(options) {
  if (!options.widths.every(width => isWhole(width, 100, 10000))) return '--width takes whole px from 100 to 10000, parted by commas';
  if (!isWhole(options.height, 100, 10000)) return '--height takes whole px from 100 to 10000';
  if (!isWhole(options.jobs, 1, 64)) return `--jobs takes a number from 1 to 64 (this machine has ${availableParallelism()} processors)`;
  if (!['chromium', 'firefox'].includes(options.browser)) return '--browser takes chromium or firefox';
  const [place, count] = (options.shard || '1/1').split('/');
  if (!isWhole(count ?? '', 1, 1000000) || !isWhole(place, 1, +count)) return '--shard takes I/N, as 3/8';
  if (!options.files.length && !options.list && !options.help) return 'no page was named';
  if (options.continue && !options.lines && !options.out) return '--continue needs --lines or --out';
  return '';
}
// The options with their values; `fault` says what is wrong.
export function optionsOf(words) {
  const options = { width: '800', height: '600', browser: 'chromium', jobs: '1', files: [], fault: '' };
  for (let i = 0; i < words.length; i++) {
    const [, name, , value] = /^--([a-z]+)(=(.*))?$/.exec(words[i]) || [];
    if (ALONE.includes(name) && value === undefined) options[name] = true;
    else if (WITH_VALUE.includes(name)) {
      options[name] = value ?? words[++i];
      if (options[name] === undefined) return { ...options, fault: `--${name} has no value` };
    } else if (words[i].startsWith('--')) return { ...options, fault: `there is no option ${words[i]}` };
    else options.files.push(words[i]);
  }
  options.widths = options.width.split(',');
  options.fault = faultOf(options);
  Object.assign(options, { widths: options.widths.map(Number), height: +options.height, jobs: +options.jobs });
  if (options.program) process.env.LAY = options.program;
  return options;
}
