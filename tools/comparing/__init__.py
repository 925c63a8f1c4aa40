"""Two runs of two versions of a GPL program, compared by lines and names and not by addresses."""
