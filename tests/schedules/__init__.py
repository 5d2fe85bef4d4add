"""Runs whose workers' calls, and those of their feed, come in an order that is given."""
