"""Ruleset texts that are read as statements."""
