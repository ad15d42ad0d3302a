"""A module's text with a mistake in it."""


def with_changes(source, changes):
    """A text with each of the first, third, .. texts replaced by the one after it; each stands in it once."""
    for right, wrong in zip(changes[::2], changes[1::2]):
        if source.count(right) != 1:
            raise ValueError('%r stands %d times' % (right, source.count(right)))
        source = source.replace(right, wrong)
    return source
