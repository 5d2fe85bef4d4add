"""The program's command `show`: each packet of a capture with what a run said of it."""
