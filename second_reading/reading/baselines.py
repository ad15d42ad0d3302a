"""The baselines of inline-blocks, tables and cells (CSS 2.2, 10.8.1, 17.5.3 and 17.5.5).

The lines of inner contexts don't count. A baseline is told from the top border edge of the context that it is of.
"""


def last_baseline(flow, box):
    """The baseline of the last line in the flow that a box has, or None."""
    if flow.lines.get(box):
        return flow.lines[box][-1].baseline
    baselines = [last_baseline(flow, child) for child in box.children if not child.is_context]
    return next((baseline for baseline in reversed(baselines) if baseline is not None), None)


def baseline_of_table(wrapper):
    """The baseline of the first row, or None."""
    baselines = wrapper.table.rows.baselines
    return wrapper.flow.top[wrapper.table] + baselines[0] if baselines else None


def first_baseline(flow, box):
    """The baseline of the first line, or first row of a block-level table, that a box has in the flow, or None."""
    if flow.lines.get(box):
        return flow.lines[box][0].baseline
    for child in box.children_in_flow():
        if child.table:
            baseline = baseline_of_table(child)
            if baseline is not None:
                return flow.top[child] + baseline
        elif not child.is_context:
            baseline = first_baseline(flow, child)
            if baseline is not None:
                return baseline
    return None


def baseline_of_atomic(box):
    """The baseline of an atomic box, which is laid out, or None where its bottom margin edge is on that of the line.

    It is that of the last line in the flow of an inline-block whose overflow is visible, or of the first row of an
    inline-table.
    """
    if box.table:
        return baseline_of_table(box)
    if box.is_replaced or box.style['overflow'].amount != 'visible':
        return None
    return last_baseline(box.flow, box)
