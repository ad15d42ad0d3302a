#!/usr/bin/env python3
"""`lay` as the judge of documents on which Chromium and Firefox differ.

usage: judge.py check                                         says whether rules.json holds together
       judge.py pages --out FOLDER [--program LAY] FILE.jsonl.gz ..    makes a page a document under a rule, and an index with counts

A line of FILE has `name`, `tags`, `run` (a run document) and what the browsers told of it, `chromium` (a list) and `firefox`: `boxes`,
`texts` and `tables` with rectangles by node, in units of 1/64 px. Without --program the second reading gives the reports.

A rule is a question with its verdict, written by hand after the document was looked at: `chromium` or `firefox` has what CSS 2.2 asks
for, or it is `open`. Each page is made of data again, and refused where the report doesn't bear the verdict out: the one that has what the
standard asks for has all pieces where `lay` has them, and the other has not.
"""
import argparse
import gzip
import html
import json
import pathlib
import re
import subprocess
import sys

import pieces
from verdict_page import FOLDER, page

ROOT = FOLDER.parent.parent
# What of our own takes part in documents with these tags, so that nobody is accused by them (docs/DECISIONS.md).
CHOICES = {
    'table-auto': 'the automatic layout of tables (17.5.2.2)', 'table-auto-width': 'the automatic layout of tables (17.5.2.2)',
    'table': 'widths of tables and heights of their rows', 'abs-static-position': 'static positions of absolute boxes',
    'clear': 'clearance', 'inline-block': 'baselines of inline-blocks', 'mixed-fonts': 'one face for the document',
    'quirks-source': 'no quirks', 'br': 'how a line break is told', 'webkit-align': 'alignment of blocks',
}
VERDICTS = {
    'chromium': 'Chromium has what CSS 2.2 asks for', 'firefox': 'Firefox has what CSS 2.2 asks for', 'open': 'The standard leaves it open',
}
WHOLES = {
    'chromium': 'Chromium is as lay in all pieces', 'firefox': 'Firefox is', 'neither': 'neither is',
    'both': 'both are, and differ in what lay has no piece of',
}


def rules():
    return json.loads((FOLDER / 'rules.json').read_text())


def is_defined(name):
    """Whether a file defines this name: `FILE NAME`."""
    file, word = name.split(' ')
    path = ROOT / file
    return path.is_file() and re.search(r'^(?:abbrev |unfoldable )?pub (?:record |data )?%s\b' % re.escape(word), path.read_text(), re.M)


def is_about(section):
    """Whether tools/sections knows files about a section."""
    done = subprocess.run([ROOT / 'tools' / 'sections', section], capture_output=True, text=True)
    return done.returncode == 0 and section in done.stdout


def faults():
    """What is wrong with the rules."""
    choices = ' '.join((ROOT / 'docs' / 'DECISIONS.md').read_text().split())
    seen = set()
    for rule in rules():
        name = rule['name']
        sections = re.findall(r'\d+(?:\.\d+)*', rule['section'])
        yield from ('%s: %s is defined nowhere' % (name, definition) for definition in rule['definitions'] if not is_defined(definition))
        yield from ('%s: no file is about %s' % (name, section) for section in sections if not is_about(section))
        if (rule['verdict'] == 'open') != bool(rule['choice']):
            yield '%s: what the standard leaves open is a choice, and nothing else is' % name
        if rule['choice'] and rule['choice'] not in choices:
            yield '%s: DECISIONS.md has no such choice' % name
        yield from ('%s: %s has two rules' % (name, document) for document in rule['documents'] if document in seen)
        seen.update(rule['documents'])


def report_of(program, run):
    if program is None:
        sys.path.insert(0, str(ROOT / 'second_reading'))
        from reading.report import report
        return report(run)
    return subprocess.run([program, 'scratch'], input=json.dumps(run), capture_output=True, text=True, timeout=60).stdout


def verdict_of(program, entry):
    chromium = next(told for told in entry['chromium'] if not told.get('tables_fixed'))
    report = report_of(program, entry['run'])
    return pieces.verdict(entry['run'], report, chromium, entry['firefox']) if report.startswith('publish') else None


def bears_out(rule, verdict):
    """Whether the pieces are as the verdict says."""
    return rule['verdict'] in ('open', verdict['whole'])


def entries(files):
    for file in files:
        for line in gzip.open(file, 'rt'):
            entry = json.loads(line)
            if isinstance(entry.get('firefox'), dict):
                yield entry


def file_of(name):
    return re.sub(r'\W+', '-', name) + '.html'


def group(word, pages):
    """The pages with one verdict."""
    links = ['<li><a href="%s">%s</a> <code>%s</code></li>' % (file_of(name), html.escape(rule['question']), html.escape(name))
             for rule, name in pages if rule['verdict'] == word]
    return '<h2>%s (%d)</h2><ul class="%s">%s</ul>' % (VERDICTS[word], len(links), word, ''.join(links))


def index(pages, wholes, free):
    """The page of all verdicts, with counts."""
    row = '<tr><th>%s</th><td>%d</td><td>%d</td></tr>'
    rows = (row % (title, wholes.get(word, 0), free.get(word, 0)) for word, title in WHOLES.items())
    return (FOLDER / 'index.html').read_text().format(
        style=(FOLDER / 'page.css').read_text(), groups=''.join(group(word, pages) for word in VERDICTS), rows=''.join(rows),
        all=sum(wholes.values()), free=sum(free.values()), pages=len(pages))


def make_pages(arguments):
    out = pathlib.Path(arguments.out)
    out.mkdir(parents=True, exist_ok=True)
    by_document = {name: rule for rule in rules() for name in rule['documents']}
    pages, wholes, free, status = [], {}, {}, 0
    for entry in entries(arguments.files):
        verdict = verdict_of(arguments.program, entry)
        if verdict is None:
            print('%s: refused' % entry['name'])
            continue
        wholes[verdict['whole']] = wholes.get(verdict['whole'], 0) + 1
        if not CHOICES.keys() & set(entry['tags']):
            free[verdict['whole']] = free.get(verdict['whole'], 0) + 1
        rule = by_document.get(entry['name'])
        if rule is None:
            continue
        if not bears_out(rule, verdict):
            print('%s: the pieces don\'t bear out the verdict of %s' % (entry['name'], rule['name']))
            status = 1
            continue
        (out / file_of(entry['name'])).write_text(page(rule, entry['name'], entry['run'], verdict))
        (out / (entry['name'].split('/')[-1] + '.json')).write_text(json.dumps(entry['run']))
        pages.append((rule, entry['name']))
    (out / 'index.html').write_text(index(pages, wholes, free))
    print('%d documents: %s; %d pages of %d rules' % (sum(wholes.values()), wholes, len(pages), len({rule['name'] for rule, _ in pages})))
    return status


def main():
    parser = argparse.ArgumentParser(description=__doc__, formatter_class=argparse.RawDescriptionHelpFormatter)
    parser.add_argument('what', choices=('check', 'pages'))
    parser.add_argument('--out', default='verdicts')
    parser.add_argument('--program')
    parser.add_argument('files', nargs='*')
    arguments = parser.parse_intermixed_args()
    found = list(faults())
    print('\n'.join(found) or 'rules.json: %d rules, %d documents, each definition, section and choice is there' % (
        len(rules()), sum(len(rule['documents']) for rule in rules())))
    return 1 if found else make_pages(arguments) if arguments.what == 'pages' else 0


if __name__ == '__main__':
    sys.exit(main())
