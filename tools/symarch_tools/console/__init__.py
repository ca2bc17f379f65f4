"""What both tools print, and how they end. In reading order:

- escapes             texts in a line of a terminal
- json_lines          what --json prints
- progress            how far a work is, on a terminal
- faults              the faults that end a command or keep a slice out
- screen              what symarch-keep prints
- streams             the standard streams of symbolicate-report
- demangler           names as people write them
- signals             the signals that end a tool
- processes           processes that end with a tool
- unforeseen_faults   what no part of a tool foresaw, in one line
- program_path        where the program symarch is
- version             the version of the tools
- answer_lines        what the program prints of an address and of the slices under a key
- program_faults      the faults of an input, as the program prints them
- packed_kinds        how a packed file is called
"""
