"""How sites exchange over a shared folder. In reading order:

- times             the times of files in the folder
- signatures        who may send, by signatures
- shared_folder     the questions and answers of sites, by their names
- memory            what a site remembers of its exchanges: ARCHIVE.asked
- join              how answers go into an archive
- build_names       how sites send one another the names of builds
- identity          the name of a site there, and how another of its name differs
- exchange          one call: what is joined, asked, answered and removed
"""
