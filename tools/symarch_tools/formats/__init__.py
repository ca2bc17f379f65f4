"""Bytes of files, read and written, no policy. In reading order:

- files             sizes and times of files, and how bytes come to be on the disk
- contents          archives and summaries: the records, and what an archive has
- indexes           the index of an archive
- tables            the tables of slices that an index has
- builds            the names of builds: ARCHIVE.builds
- build_lines       what a line of it has to be
- universal_files   universal files
- mach_images       what the commands of an image say: its sections and symbols
- packed_files      zip files and gzipped tar files
- packed_modules    what of these needs modules that take long to import
- bundles           what Info.plist and the path say of a slice
- file_kinds        what a file looks like of which nothing goes in
"""
