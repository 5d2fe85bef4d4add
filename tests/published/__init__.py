"""A table of states that is published while viewers in threads of their own look at it."""
