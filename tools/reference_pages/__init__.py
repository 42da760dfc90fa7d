"""The pages of docs/reference, each made from the sources."""
