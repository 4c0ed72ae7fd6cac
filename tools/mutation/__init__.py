"""What tools/mutants is made of.

tokens       the words of the two languages, with their places
signatures   the types of arguments, by which some are not exchanged
items        the functions and constants of a file of the code
statements   the statements of a function, each left out
code         what one edit makes of a function or a constant
definitions  what one edit makes of a definition
mutants      mutants with their keys, those of a crate, and a sample of them
edits        the edits of tools/edits/, and the mutants that are known to be equivalent
cited        the files of definitions that a public contract or a claim cites
verdicts     what the prover's output says of a mutant
batches      several mutants in one run, and what its output says of each
runs         copies of the repository, and mutants tried in them
reports      the lines and the table that are printed
"""
