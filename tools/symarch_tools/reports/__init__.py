"""The forms of reports that symbolicate-report reads. In reading order:

- faults            why the tool ends, and its statuses
- encodings         the bytes of a file, as UTF-8, and back
- images            the images of a report, and the frames that lie in them
- names             the names of all answers
- source_lines      files, lines and inlined functions
- answers           the answers of the program
- questions         how the program is asked
- archives          the archives of a call
- text              reports as lines
- json              reports as JSON
- report            a whole file, and what is said of it
- missing           the images whose dSYMs are wanted
- frame_objects     frames as JSON
- account           the counts of all, as text and as JSON
- groups            reports by the top frames of the thread that crashed
- arguments         the arguments of a call
- folders           the files below a folder that may be reports
"""
