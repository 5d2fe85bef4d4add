"""Runs packet by packet: what one packet comes to, over a table of states."""
