// The sums of many pages.
import { added } from '../test/compare.mjs';

export function totalOf(results) {
  const none = { all: 0, exact: 0, near: 0, within: 0 }, total = { pages: results.length, whole: 0, differs: 0, refused: 0, failed: 0 };
  for (const { verdict } of results) total[verdict]++;
  for (const kind of ['blocks', 'texts', 'inlines']) total[kind] = results.reduce((sum, result) => added(sum, result[kind]), none);
  return total;
}
export const share = (count, all) => all ? ` (${(100 * count / all).toFixed(2)} %)` : '';
