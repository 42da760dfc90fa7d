"""The references in Python: what the program has to write, computed plainly and slowly, and comparisons of its own answers."""
