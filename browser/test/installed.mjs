// Whether a program is on the PATH, or is a path itself. It isn't run: a busy machine may take long for that.
import { accessSync, constants } from 'node:fs';
import { join } from 'node:path';

function isProgram(path) {
  try { accessSync(path, constants.X_OK); return true; } catch { return false; }
}
export const installed = name => name.includes('/') ? isProgram(name) :
  (process.env.PATH || '').split(':').some(folder => isProgram(join(folder, name)));
