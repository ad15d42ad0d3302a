// browser/judge_page: what `lay` says of pages, beside what a browser shows.
import { optionsOf, USAGE } from './words.mjs';
import { tasksOf } from './tasks.mjs';
import { judgePages } from './pool.mjs';
import { join } from './lines.mjs';
import { judgeReftests } from './reftest.mjs';

// Answers the status: 0 where all is as in the browser, 1 where something differs, 2 for wrong words.
export async function run(words) {
  const options = optionsOf(words);
  if (options.help) { console.log(USAGE); return 0; }
  if (options.fault) { console.error(`${options.fault}\n\n${USAGE}`); return 2; }
  if (options.join) return join(options);
  if (options.reftest) return judgeReftests(options);
  const tasks = tasksOf(options);
  if (!tasks.length && !options.shard) { console.error('no page was named'); return 2; }
  return judgePages(options, tasks);
}
