"""The built program with workers and without: its outputs never depend on them, and its runs end alike."""
