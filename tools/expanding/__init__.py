"""A GPL source of several files with macros, as the one source that the program reads."""
