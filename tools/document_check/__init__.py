"""What tools/check_document is made of: reading the text, values, nodes, commands, the style sheet."""
