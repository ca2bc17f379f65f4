"""Reports as JSON. In reading order:

- walk              JSON of any size, piece by piece
- report            reports as JSON
- edits             what is written into JSON, in its own layout
- readable          JSON reports as people read them
- readable_header   what stands above their threads, and below them
"""
