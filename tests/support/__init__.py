"""What tests share. In reading order:

- program           where the program is, and what came of a call
- cases             cases with a folder of their own, and cases over the program
- case_slices       the slices of the files of crates/test_acceptance/data/cases
- made_images       images, universal files, archives and the other files of symarch
- made_trees        folders of files of every kind
- rooms             a folder in which symarch-keep is called
- sites             sites that exchange over folders
- kills             tools that are killed before one of their steps
- waits             waits for what has to come
- growth            how much longer a work takes with a longer input
- traces            what a program asks of the system, by strace
- second_lines      the second line of a fault
- fresh_root        a system of Debian's essential packages
- reports           cases over symbolicate-report, and archives of the images of examples/crash
- packages          what packaging/package makes
- servers           a server of an archive, and what it answers
- named             the tests and the cases, by their names
- command_table     the commands of the program and their arguments, by its table
"""
