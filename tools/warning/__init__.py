"""Warnings of a GPL source that the program accepts: what its lines certainly do, and was hardly meant."""
