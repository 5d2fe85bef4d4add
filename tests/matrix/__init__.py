"""Scenes whose outputs are worked out by hand, each run with every choice of workers and batches."""
