// Answers --help for the script that imports this first: prints the comment at the head of that script, and ends.
import { readFileSync } from 'node:fs';

if (process.argv.includes('--help')) {
  const lines = readFileSync(process.argv[1], 'utf8').split('\n').filter(line => !line.startsWith('#!'));
  console.log(lines.slice(0, lines.findIndex(line => !line.startsWith('//'))).map(line => line.slice(3)).join('\n'));
  process.exit(0);
}
