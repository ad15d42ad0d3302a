"""Wrong versions of relative, absolute and fixed boxes, for `wrong_readings`.

They are written as those of `mistakes` are.
"""

POSITIONED_MISTAKES = {
    'nodes': [
        ('an absolute inline box stays inline', 'if self.is_out_of_flow() or self.parent is None:',
         'if self.is_floating() or self.parent is None:'),
        ('a relative box is out of the flow', "ABSOLUTE = ('absolute', 'fixed')",
         "ABSOLUTE = ('absolute', 'fixed', 'relative')"),
        ('a fixed box is in the flow', "ABSOLUTE = ('absolute', 'fixed')", "ABSOLUTE = ('absolute',)"),
    ],
    'parts': [
        ('an absolute block breaks its inline box', 'not is_out_of_flow(part) and not is_atomic(part)',
         'not (is_out_of_flow(part) and part.is_floating()) and not is_atomic(part)'),
    ],
    'boxes': [
        ('an absolute box beside a block is wrapped', 'if all(is_out_of_flow(part) or is_blank(part) for part in run):',
         'if all((is_out_of_flow(part) and part.is_floating()) or is_blank(part) for part in run):'),
    ],
    'content': [
        ('spaces do not collapse over an absolute box', 'if isinstance(item, Atomic):\n                is_after',
         'if isinstance(item, Atomic) or (isinstance(item, OutOfFlow) and item.box.is_absolute):\n'
         '                is_after'),
        ('an absolute box behind a break stands after it', 'elif before and not before.is_forced:',
         'elif before and not before.is_forced and not part.box.is_absolute:'),
        ('an absolute box behind a linefeed stands before it', 'elif before and not before.is_forced:',
         'elif before and (part.box.is_absolute or not before.is_forced):'),
    ],
    'lines': [
        ('an absolute box in a line stands below it', '        self.bottom = line.top + sum(shape.extent)\n',
         '        self.bottom = line.top + sum(shape.extent)\n'
         '        self.static_tops.update(dict.fromkeys(line.anchored, self.bottom))\n'),
        ('an absolute box in a line does not go down with it', 'dict.fromkeys(line.anchored, line.top)',
         'dict.fromkeys(line.anchored, self.bottom)'),
        ('an absolute box at the start of a line stands above it',
         '        line.anchored += [box for box in heads if box.is_absolute]\n',
         '        self.static_tops.update((box, self.bottom) for box in heads if box.is_absolute)\n'),
        ('an absolute box in a line stands beside its floats', 'dict.fromkeys(line.anchored, line.top)',
         'dict.fromkeys(line.anchored, max([line.top] + [other.bottom for other in self.floats]))'),
        ('an absolute box in a line that is not seen stands at the top',
         '        self.static_tops.update(dict.fromkeys(line.anchored, line.top))\n',
         '        self.static_tops.update(dict.fromkeys(line.anchored, line.top if line.pen.is_seen\n'
         '                                              else self.containing_block.top))\n'),
    ],
    'margins': [
        ('an absolute box parts margins', '        if box.is_out_of_flow():\n            return True\n',
         '        if box.is_floating:\n            return True\n'),
        ('an absolute box has margins in the flow', 'if margin.box.is_out_of_flow():\n        return 0\n    return',
         'if margin.box.is_floating:\n        return 0\n    if margin.box.is_absolute:\n'
         "        return margin.box.style['margin-' + margin.edge].amount if (\n"
         "            margin.box.style['margin-' + margin.edge].kind == 'length') else 0\n    return"),
    ],
    'blocks': [
        ('an absolute box stands at the end of its run', 'self.content_boxes[box.parent].left, self.mark(box)',
         'self.content_boxes[box.parent].left, self.start + self.runs.whole(top_margin(box))'),
        ('an absolute box stands apart from its parent', 'self.content_boxes[box.parent].left, self.mark(box)',
         'self.content_boxes[box.parent].left, self.start + self.runs.before(bottom_margin(box))'),
        ('an absolute box stands at the top of its parent', 'self.content_boxes[box.parent].left, self.mark(box)',
         'self.content_boxes[box.parent].left, self.content_boxes[box.parent].top'),
        ('an absolute box stands beside floats', 'self.content_boxes[box.parent].left, self.mark(box)',
         'max([self.content_boxes[box.parent].left] + [other.right for other in self.floats\n'
         "                 if other.side == 'left' and other.top <= self.mark(box) < other.bottom]), self.mark(box)"),
        ('an absolute box is in the height of its parent', 'self.content_boxes[box.parent].left, self.mark(box)\n',
         'self.content_boxes[box.parent].left, self.mark(box)\n'
         "            self.start += box.style['height'].amount if box.style['height'].kind == 'length' else 0\n"),
        ('an absolute box in a line stands at the edge of its parent', 'self.content_boxes[box].left, top',
         'self.content_boxes[box].left - box.padding.left, top'),
    ],
    'offsets': [
        ('right wins over left', "(first_offset(style, ('left', 'right')", "(-first_offset(style, ('right', 'left')"),
        ('bottom wins over top', " first_offset(style, ('top', 'bottom')", " -first_offset(style, ('bottom', 'top')"),
        ('right moves to the right', 'start = 0 if end is None else -end', 'start = end or 0'),
        ('right and bottom do not move', 'start = 0 if end is None else -end', 'start = 0'),
        ('offsets of both sides add up', '    if start is None:\n        start = 0 if end is None else -end\n',
         '    start = (start or 0) - (end or 0)\n'),
        ('a top in percent of a height of auto is of the width', "('top', 'bottom'), containing_height)",
         "('top', 'bottom'), containing_width if containing_height is None else containing_height)"),
        ('a top in percent is of the width', "('top', 'bottom'), containing_height)",
         "('top', 'bottom'), containing_width)"),
        ('a left in percent is of the height', "('left', 'right'), containing_width)",
         "('left', 'right'), containing_height or 0)"),
        ('an inline box moves nothing', 'while node and node.is_inline_box():', 'while False:'),
        ('an inline box in another one alone moves', 'left + offset[0], top + offset[1], node.parent',
         'left + offset[0], top + offset[1], None'),
        ('an inline box does not move a block that broke it', '    inlines = offset_of_inlines(',
         "    inlines = (0, 0) if box.display == 'block' and not box.is_out_of_flow() else offset_of_inlines("),
        ('an inline box does not move a float', '    inlines = offset_of_inlines(',
         '    inlines = (0, 0) if box.is_floating else offset_of_inlines('),
        ('an inline box does not move a static position', '    inlines = offset_of_inlines(',
         '    inlines = (0, 0) if box.is_absolute else offset_of_inlines('),
        ('an inline box does not move an atomic box', '    inlines = offset_of_inlines(',
         '    inlines = (0, 0) if box.is_atomic else offset_of_inlines('),
        ('an inline box does not move an anonymous table', 'box.node if box.is_anonymous else box.node.parent',
         'None if box.is_anonymous else box.node.parent'),
        ('a table moves inside its wrapper', '    if container.table:\n        return 0, 0\n', ''),
        ('a relative block is not moved', 'return left + inlines[0], top + inlines[1]', 'return inlines'),
        ('negative margins are shared across', 'if room >= 0 or are_always_equal else 0', ''),
        ('negative margins are all on the left', 'if room >= 0 or are_always_equal else 0',
         'if room >= 0 or are_always_equal else room'),
        ('the second one of two margins is rounded down', 'before = room // 2 if', 'before = -(-room // 2) if'),
        ('a margin of auto does not follow', '    elif before is None:\n        before = room - after\n',
         '    elif before is None:\n        before = 0\n'),
        ('a right that is over-constrained is kept',
         '        return Solved(start, before, after, size)\n    before, after = before or 0, after or 0\n',
         '        return Solved(room - before - size - after - end, before, after, size)\n'
         '    before, after = before or 0, after or 0\n'),
        ('there is no static position', '        start = static\n', '        start = 0\n'),
        ('a static position counts for the right, too', '        start = static\n',
         '        start = static\n        end = end or 0\n'),
        ('what is available goes from the containing block',
         '        start = static\n    available = room - (start or 0)',
         '        start, given = static, 0\n    else:\n        given = start or 0\n    available = room - given'),
        ('margins are available', '- (start or 0) - before - after - (end or 0)', '- (start or 0) - (end or 0)'),
        ('a size between two offsets is that of the content',
         'content_size(available) if None in (start, end) else max(0, available)', 'content_size(available)'),
        ('a size beside one offset fills what is available',
         'content_size(available) if None in (start, end) else max(0, available)', 'max(0, available)'),
        ('a size between two offsets is negative', 'else max(0, available)', 'else available'),
        ('auto margins share beside a size of auto', '    before, after = before or 0, after or 0\n',
         '    if before is None and after is None and None not in (start, end):\n'
         '        size = content_size(room - start - end)\n'
         '        before, after = shared_margins(before, after, room - start - size - end, are_always_equal)\n'
         '    before, after = before or 0, after or 0\n'),
    ],
    'sizes': [
        ('an absolute table fills what its offsets leave', 'return with_width_of_table if box.table else with_width',
         'return with_width'),
        ('a replaced absolute box fills what its offsets leave', '        return equation(box.replaced_width)  ',
         "        return equation(None if box.is_absolute and box.style['width'].amount == 'auto' else "
         'box.replaced_width)  '),
        ('heights of absolute boxes between two offsets are definite',
         '    box.percentage_base = containing_height if box.is_anonymous',
         "    top, bottom = (resolve(style[side], containing_height) for side in ('top', 'bottom'))\n"
         "    if box.display != 'table-box' and box.is_absolute and None not in (top, bottom) and box.given_height "
         'is None:\n'
         '        box.percentage_base = max(0, containing_height - top - bottom)\n        return\n'
         '    box.percentage_base = containing_height if box.is_anonymous'),
        ('absolute boxes in percent are not definite', 'else box.definite_height        # 9.2.1.1',
         "else box.definite_height if not box.is_absolute or style['height'].kind != 'percentage' else None"),
    ],
    'preferred': [
        ('an absolute box contributes', '        if child.is_absolute:\n            continue\n', ''),
        ('an absolute box parts floats', '        if child.is_absolute:\n            continue\n',
         '        if child.is_absolute:\n            before = child\n            continue\n'),
        ('an absolute box in a line contributes', 'for box in segment.heads + segment.met if box.is_floating]',
         'for box in segment.heads + segment.met]'),
    ],
    'page': [
        ('the containing block is the content box',
         'return Rect(box.corner.left + border.left, box.corner.top + border.top,\n'
         '                    box.border_box_width - border.left - border.right,\n'
         '                    box.border_box_height - border.top - border.bottom)',
         'pads = box.padding\n'
         '        return Rect(box.corner.left + border.left + pads.left, box.corner.top + border.top + pads.top,\n'
         '                    box.border_box_width - border.left - border.right - pads.left - pads.right,\n'
         '                    box.border_box_height - border.top - border.bottom - pads.top - pads.bottom)'),
        ('the containing block is the border box', '        border = box.border\n        return Rect(',
         '        border = box.border._make((0, 0, 0, 0))\n        return Rect('),
        ('a fixed box stands in its positioned ancestor',
         "box.node.parent if box.node.word('position') == 'absolute' else None", 'box.node.parent'),
        ('an absolute box stands in the viewport',
         "box.node.parent if box.node.word('position') == 'absolute' else None", 'None'),
        ('an absolute box stands in its parent', "if node.word('position') != 'static' and node.display",
         'if node.display'),
        ('relative boxes are no containing blocks', "node.word('position') != 'static' and", 'node.is_absolute() and'),
        ('fixed boxes are no containing blocks', "node.word('position') != 'static' and",
         "node.word('position') in ('absolute', 'relative') and"),
        ('cells and captions are containing blocks', "('block', 'inline-block', 'table', 'inline-table'):",
         "('block', 'inline-block', 'table', 'inline-table', 'table-cell', 'table-caption'):"),
        ('tables are no containing blocks', "('block', 'inline-block', 'table', 'inline-table'):",
         "('block', 'inline-block'):"),
        ('inline-blocks are no containing blocks', "('block', 'inline-block', 'table', 'inline-table'):",
         "('block', 'table', 'inline-table'):"),
        ('what follows a relative box moves with it',
         '            child_origin = moved(origin, *offset_in(box, child))\n',
         '            origin = child_origin = moved(origin, *offset_in(box, child))\n'),
        ('what a relative box holds stays', '                self.place_inside(child, flow, child_origin)\n',
         '                self.place_inside(child, flow, origin)\n'),
        ('the shift of a cell does not move static positions',
         'child.static_position = moved(child_origin, flow.left[child], flow.top[child])',
         'child.static_position = moved(child_origin, flow.left[child], flow.top[child] - (\n'
         '                    flow.context_box.shift))'),
        ('the shift of a cell does not move what it holds', 'moved(corner, 0, box.shift))', 'corner)'),
        ('negative margins are not shared down', 'are_always_equal=True', 'are_always_equal=False'),
        ('margins above and below in percent are of the height',
         "resolve(style[name], containing_block.width) for name in ('margin-top', 'margin-bottom')",
         "resolve(style[name], containing_block.height) for name in ('margin-top', 'margin-bottom')"),
        ('an absolute box has a greatest and a least height of none',
         'return within_bounds(with_height, box.given_height, box.min_height, box.max_height)',
         'return with_height(box.given_height)'),
        ('bounds of the height keep the margins',
         'return within_bounds(with_height, box.given_height, box.min_height, box.max_height)',
         'solved = with_height(box.given_height)\n'
         '    most = solved.size if box.max_height is None else min(solved.size, box.max_height)\n'
         '    return solved._replace(size=max(most, box.min_height))'),
        ('top and bottom stretch a table', 'if box.is_replaced or box.table:',
         "if box.table and 'auto' not in (style['top'].amount, style['bottom'].amount):\n"
         '        return with_height(None)\n    if box.is_replaced or box.table:'),
        ('a height of content counts floats alone', 'lambda available: box.flow.auto_height',
         'lambda available: min(available, box.flow.auto_height)'),
        ('an absolute box stands left by its margin', '+ within_limit(across.start) + box.margin.left,',
         '+ within_limit(across.start),'),
        ('an absolute box stands up by its margin', '+ within_limit(down.start) + box.margin.top))',
         '+ within_limit(down.start)))'),
        ('a static position is told from the page', 'static_left = box.static_position.left - containing_block.left',
         'static_left = box.static_position.left'),
        ('the root is not moved', '*relative_offset(root.style, viewport.width, viewport.height)', '0, 0'),
        ('an absolute root stands in the flow', '        if root.is_absolute:\n', '        if False:\n'),
    ],
    'report': [
        ('a relative inline box stays with its texts', '    left, top = offset_of_inlines(node, box)\n',
         '    left = top = 0\n'),
        ('a relative inline box moves what is in it alone',
         "node = piece.box.node.parent if piece.kind == 'text' else piece.box.node", 'node = piece.box.node.parent'),
    ],
}
