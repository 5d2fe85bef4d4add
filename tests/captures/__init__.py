"""Captures and frames: models of both, and cases on them for the runs."""
