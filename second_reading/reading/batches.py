"""Batches of edits: commands with a list of edits, which a document takes whole or not at all."""
EDITS = ('set', 'clear', 'text', 'insert', 'remove')
COMMANDS_WITH_EDITS = EDITS + ('batch',)
MOST_EDITS = 1024
MOST_NODES = 65536


def edits_of(command):
    """The list of edits of a command that edits; one that is no batch has itself alone."""
    return command['edits'] if command['do'] == 'batch' else [command]


def refusal(edits, fault, place):
    """What a report says of a list that is refused: a single edit needs no place."""
    return 'refused %s' % fault if len(edits) == 1 else 'refused %s at %d' % (fault, place)
