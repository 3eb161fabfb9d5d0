"""A run to look at: reads a scenario and its trace, follows the run, and writes a page or a picture of it."""
