// The scripts of browser/view and where differences begin, which are plain ones, for use outside of a page.
import { readFileSync } from 'node:fs';
import { createContext, Script } from 'node:vm';

const NAMES = { '../play/causes': 'Causes', sheet: 'Sheet', reading: 'Reading', refusals: 'Refusals', kinds: 'Kinds', texts: 'Texts', changes: 'Changes', find: 'Find',
  box_model: 'BoxModel', picture: 'Picture' };
const text = Object.keys(NAMES).map(name => readFileSync(new URL(`../view/${name}.js`, import.meta.url), 'utf8')).join('\n');
export const views = new Script(`${text}\n({ ${Object.values(NAMES).join(', ')} })`).runInContext(createContext({}));
