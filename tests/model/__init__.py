"""A model of archives and commands that shares nothing with the program. In reading order:

- images            images and universal files
- dwarf_numbers     numbers, texts, units and values of DWARF; dwarf_entries, dwarf_ranges and dwarf_lines, what is
                    made of them
- dwarf_frames      the frames of an address
- contents          the content of archives, and the texts of files
- pages             bytes that are stored by pages, and read page by page
- line_tables       the line tables of slices, made and asked; tables, of which they are the last part; indexes, which
                    have these
- lines             the lines that commands print, and the words that they take
- worlds            scripts of rehearsals, their sites, and frames
- plans             the words of commands
- commands          what commands read, write and print
- hints             the second line of a fault
- parts             the words of cases that spell bytes
- calls             the calls of cases below the commands
- cases             the language of crates/test_acceptance/data/cases, carried out
- checking          the cases beside what the model computes
- take_growths      takes over the numbers of refused growths, which the model does not compute
"""
