"""What a user runs besides the program symarch, and what it is made of. In reading order:

- formats           the bytes of archives, indexes, summaries and files of images: read and written, no policy
- store             an archive: its levels, lock, log and index, and how a new file takes the place of one
- exchange          how sites exchange over a shared folder: questions, answers, signatures
- reports           the forms of reports, their images and frames, and their text
- console           what both tools print, and how they end
- commands          the commands of symarch-keep, a module each
- keep              symarch-keep
- symbolicate       symbolicate-report
"""
