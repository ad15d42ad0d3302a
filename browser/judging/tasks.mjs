// Which pages are judged, at which widths, and what their results are called.
import { existsSync, readFileSync, readdirSync, statSync } from 'node:fs';
import { basename, join, relative, resolve } from 'node:path';

const isPage = name => /\.(html?|xhtml|xht)$/i.test(name);
export const isAddress = text => /^https?:\/\//.test(text);

// All pages of a folder, in the order of their names.
export function pagesIn(folder) {
  const entries = readdirSync(folder, { withFileTypes: true }).sort((a, b) => (a.name < b.name ? -1 : a.name > b.name ? 1 : 0));
  return entries.flatMap(entry => {
    const path = join(folder, entry.name);
    if (entry.isDirectory()) return pagesIn(path);
    return isPage(entry.name) && existsSync(path) ? [path] : [];
  });
}
// [file, what it is called] of each page.
function pagesOf(word) {
  if (isAddress(word)) return [[word, word.replace(/^https?:\/\//, '')]];
  if (!existsSync(word)) throw new Error(`${word}: no such file`);
  if (!statSync(word).isDirectory()) return [[word, basename(word)]];
  return pagesIn(word).map(path => [path, relative(word, path)]);
}
export const listed = file => readFileSync(file, 'utf8').split('\n').map(line => line.trim()).filter(line => line && !line.startsWith('#'));
const safe = text => text.replace(/\.(html?|xhtml|xht)$/i, '').replace(/[^\w.-]+/g, '-').slice(0, 120);

// What this shard has of all; `whole` is how many there are.
export function ofShard(options, all) {
  const [place, count] = (options.shard || '1/1').split('/').map(Number);
  options.whole = all.length;
  return all.filter((_, i) => i % count === place - 1);
}
// The tasks of this shard: { file, page, width, height, name }, each name once.
export function tasksOf(options) {
  const words = options.files.concat(options.list ? listed(options.list) : []), tasks = [], names = new Map();
  for (const [file, title] of words.flatMap(pagesOf)) for (const width of options.widths) {
    const plain = safe(title) + (options.widths.length > 1 ? `-${width}` : ''), count = (names.get(plain) || 0) + 1;
    names.set(plain, count);
    const page = isAddress(file) ? file : resolve(file);
    tasks.push({ file, page, width, height: options.height, name: count > 1 ? `${plain}-${count}` : plain });
  }
  return ofShard(options, tasks);
}
