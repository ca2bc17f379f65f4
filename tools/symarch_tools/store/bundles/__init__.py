"""The dSYM bundles that `get` makes. In reading order:

- plan              which slices go into which file, and what that is called
- folder            how the files are made in a folder
"""
