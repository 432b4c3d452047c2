"""Draws the run of a script: a page that shows it line by line, a picture of one line, or the graph of its waits.
Nothing of it is proved. docs/DRAW.md of the repository describes it, and `vlm-draw --help` its command line."""
