"""Compares runs over devices in memory, which may fail, with a model and with rows written by hand."""
