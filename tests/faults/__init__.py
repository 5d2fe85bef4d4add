"""Commands whose allocations, reads and writes fail in turn."""
