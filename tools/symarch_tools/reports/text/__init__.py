"""Reports as lines. In reading order:

- pasted            what stands before each line of a pasted report, and back
- doubled           the empty line after each line of one
- logged            the time or bullet before each line of one
- named_lines       lines of crashes with names
- tree_lines        lines of call trees with names
- unlisted          frames of images that the call names
- report            reports as lines
"""
