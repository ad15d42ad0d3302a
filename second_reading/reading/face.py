"""Fonts without shapes: advances of characters, and grapheme clusters (CSS 2.2, 15 and 16.4; UAX 29).

The numbers of a face are thousandths of the font size. Clusters are the extended grapheme clusters of UAX 29 as far as
Python's tables of Unicode tell: the classes CR, LF, Control, Extend, ZWJ, Regional_Indicator, SpacingMark, the Hangul
ones, and most of Extended_Pictographic; without Prepend and without Indic conjuncts.
"""
import re
import unicodedata

DEFAULT_FIELDS = {'default': 500, 'ascent': 750, 'descent': 250, 'xheight': 500, 'normal': 1250}
ZERO_WIDTH_NON_JOINER, ZERO_WIDTH_JOINER = '\u200c', '\u200d'
SPACING_THAI = '\u0e33\u0eb3'
# Signs of the category Mc that extend what is before them, with the two that stand alone.
EXTENDING_MC = re.compile('[\u09be\u09d7\u0b3e\u0b57\u0bbe\u0bd7\u0cc2\u0cd5\u0cd6\u0d3e\u0d57\u0dcf\u0ddf\u302e\u302f'
                          '\uff9e\uff9f]')
LONE_MC = re.compile('[\u102b\u102c\u1038\u1062-\u1064\u1067-\u106d\u1083\u1087-\u108c\u108f\u109a-\u109c'
                     '\u1a61\u1a63\u1a64\uaa7b\uaa7d]')
PICTOGRAPHIC = re.compile(
    '[\u00a9\u00ae\u203c\u2049\u2122\u2139\u2194-\u2199\u21a9\u21aa\u231a\u231b\u2328\u23cf'
    '\u23e9-\u23f3\u23f8-\u23fa\u24c2\u25aa\u25ab\u25b6\u25c0\u25fb-\u25fe\u2600-\u2605'
    '\u2607-\u2612\u2614-\u2685\u2690-\u2705\u2708-\u2712\u2714\u2716\u271d\u2721\u2728\u2733'
    '\u2734\u2744\u2747\u274c\u274e\u2753-\u2755\u2757\u2763-\u2767\u2795-\u2797\u27a1\u27b0'
    '\u27bf\u2934\u2935\u2b05-\u2b07\u2b1b\u2b1c\u2b50\u2b55\u3030\u303d\u3297\u3299'
    '\U0001f000-\U0001f0ff\U0001f10d-\U0001f10f\U0001f12f\U0001f16c-\U0001f171\U0001f17e'
    '\U0001f17f\U0001f18e\U0001f191-\U0001f19a\U0001f1ad-\U0001f1e5\U0001f201-\U0001f20f'
    '\U0001f21a\U0001f22f\U0001f232-\U0001f23a\U0001f23c-\U0001f23f\U0001f249-\U0001f3fa'
    '\U0001f400-\U0001f53d\U0001f546-\U0001f64f\U0001f680-\U0001f6ff\U0001f774-\U0001f77f'
    '\U0001f7d5-\U0001f7ff\U0001f80c-\U0001f80f\U0001f848-\U0001f84f\U0001f85a-\U0001f85f'
    '\U0001f888-\U0001f88f\U0001f8ae-\U0001f8ff\U0001f90c-\U0001f93a\U0001f93c-\U0001f945'
    '\U0001f947-\U0001faff\U0001fc00-\U0001fffd]')


class Face:
    """The numbers of the member `face` of a run document."""

    def __init__(self, fields):
        fields = {**DEFAULT_FIELDS, **fields}
        self.normal, self.rest = fields['normal'], fields['default']
        self.ascent_number, self.descent_number = fields['ascent'], fields['descent']
        self.x_height_number = fields['xheight']
        self.advances = {chr(code): advance for code, advance in fields.get('advance', [])
                         if not 0xd800 <= code <= 0xdfff}

    def advance(self, character, size):
        """The advance of a character in units."""
        return self.advances.get(character, self.rest) * size // 1000

    def ascent(self, size):
        return self.ascent_number * size // 1000

    def descent(self, size):
        return self.descent_number * size // 1000

    def x_height(self, size):
        return self.x_height_number * size // 1000


# -- clusters

def cluster_class(character):
    """What a character does in clusters."""
    code = ord(character)
    if 0xac00 <= code <= 0xd7a3:
        return 'LV' if (code - 0xac00) % 28 == 0 else 'LVT'
    if 0x1100 <= code <= 0x115f or 0xa960 <= code <= 0xa97c:
        return 'L'
    if 0x1160 <= code <= 0x11a7 or 0xd7b0 <= code <= 0xd7c6:
        return 'V'
    if 0x11a8 <= code <= 0x11ff or 0xd7cb <= code <= 0xd7fb:
        return 'T'
    if 0x1f1e6 <= code <= 0x1f1ff:
        return 'regional'
    if character == ZERO_WIDTH_JOINER:
        return 'joiner'
    category = unicodedata.category(character)
    if (category in ('Mn', 'Me') or EXTENDING_MC.match(character) or character == ZERO_WIDTH_NON_JOINER
            or 0x1f3fb <= code <= 0x1f3ff or 0xe0020 <= code <= 0xe007f):
        return 'extend'
    if category in ('Cc', 'Cf', 'Zl', 'Zp'):
        return 'control'
    if (category == 'Mc' and not LONE_MC.match(character)) or character in SPACING_THAI:
        return 'mark'
    return 'pictograph' if PICTOGRAPHIC.match(character) else 'other'


def parts_clusters(before, after):
    """There is a boundary between a cluster so far, as the classes of its characters, and the next class."""
    last = before[-1]
    if 'control' in (last, after):
        return True
    if after in ('extend', 'joiner', 'mark'):
        return False
    if (last == 'L' and after in ('L', 'V', 'LV', 'LVT')) or (last in ('LV', 'V') and after in ('V', 'T')) \
            or (last in ('LVT', 'T') and after == 'T'):
        return False
    if after == 'pictograph' and last == 'joiner':
        front = [name for name in before[:-1] if name != 'extend']
        return not (front and front[-1] == 'pictograph')
    if after == 'regional' and last == 'regional':
        return len(before) % 2 == 0
    return True


def clusters(text):
    """The grapheme clusters of a text, in order."""
    if text.isascii():
        return re.findall('\r\n|[\x00-\x7f]', text)
    found, classes = [], []
    for character in text:
        name = cluster_class(character)
        if found and (found[-1] == '\r' and character == '\n' or not parts_clusters(classes, name)):
            found[-1] += character
            classes.append(name)
        else:
            found.append(character)
            classes = [name]
    return found
