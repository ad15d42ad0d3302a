"""Makes browser/play.html: one file of the parts of this folder, of view/, of the exporter, and of the module in base64."""
import base64
import json
import pathlib
import re

FOLDER = pathlib.Path(__file__).resolve().parent
BROWSER = FOLDER.parent
MODULE = BROWSER / 'wasm' / 'lay_unproved.wasm.gz'
STYLES = ('view/picture.css', 'play/play.css')
# In the order in which they need each other.
SCRIPTS = ('view/sheet.js', 'view/reading.js', 'view/refusals.js', 'view/kinds.js', 'view/texts.js', 'view/changes.js', 'view/box_model.js',
           'view/picture.js', 'view/info.js', 'play/address.js', 'play/editor.js', 'play/runner.js', 'play/stage.js', 'play/window.js',
           'play/drawing.js', 'play/told.js', 'play/play.js')
EXAMPLES = ('two columns.html', 'margins that collapse.html', 'a table.html', 'floats with text.html', 'where browsers do otherwise.html',
            'a run document with edits.json')


def text_of(name):
    return (BROWSER / name).read_text()


def plain(name, text):
    """A module as a plain script with one object of what it exports."""
    names = re.findall(r'^export (?:function|const) (\w+)', text, re.M)
    return 'const %s = (() => {\n%s\nreturn { %s };\n})();\n' % (name, re.sub(r'^export ', '', text, flags=re.M), ', '.join(names))


def shortened(text):
    """JavaScript without indentation, empty lines and lines that are comments."""
    lines = (line.strip() for line in text.splitlines())
    return '\n'.join(line for line in lines if line and not line.startswith('//'))


def examples():
    """[name, text] of each example."""
    return [[name.rpartition('.')[0], (FOLDER / 'examples' / name.replace(' ', '-')).read_text()] for name in EXAMPLES]


def given_text(name, path):
    """A file as a text that a script has."""
    return 'const %s = %s;\n' % (name, json.dumps(text_of(path)))


def script_text(text):
    """A text for the inside of a script element."""
    return re.sub(r'<(?=/script|!--)', r'\\x3c', text, flags=re.I)


def parts():
    library, compared = text_of('wasm/lay.js'), plain('Comparison', text_of('test/compare.mjs')) + text_of('play/causes.js')
    return {
        'style': '\n'.join(map(text_of, STYLES)),
        'scripts': '\n'.join([compared, plain('Rules', text_of('judging/rules.mjs')), *map(text_of, SCRIPTS)]),
        'packed': base64.b64encode(MODULE.read_bytes()).decode(), 'exporter': shortened(text_of('export.js')),
        'frame': shortened(text_of('play/frame.js')),
        'worker': shortened(library + compared + text_of('play/worker.js')),
        'judge': shortened(library + compared + given_text('RULES', 'play/judge_here.css') + text_of('play/judge_here.js')),
        'given': json.dumps({'examples': examples()}).replace('<', '\\u003c'),
    }


def page():
    made = parts()
    written = {name: text if name == 'style' else script_text(text) for name, text in made.items()}
    return re.sub(r'@(\w+)@', lambda match: written[match[1]], text_of('play/page.html'))
