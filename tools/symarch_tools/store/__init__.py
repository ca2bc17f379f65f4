"""An archive as a store. In reading order:

- slices            what files and folders have
- program           the program symarch, as it is run
- refusals          why the program refuses files and slices
- file_names        the names of the files of an archive
- lock              the lock of an archive, and how those look at files who take none
- archive_file      an archive file, and what is known of it
- log               the lines of the commands with their dates
- losses            what changed or is lost, and the lines of it
- folder            the folder of an archive, and how a new file takes the place of one
- levels            the files of an archive, their sizes, and which of them a fold joins
- archive           an archive: what it has, what is lost, what a kill left
- draft             the draft of a new archive file: how more comes in, and folds
- changes           what changed in files, which `check` finds and `repair` mends
- asking            the files of an archive, asked by their indexes
- lookup            what archive files have under UUIDs
- bundles           the dSYM bundles that `get` makes
"""
