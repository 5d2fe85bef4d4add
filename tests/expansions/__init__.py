"""Ruleset texts that are expanded to flat rulesets."""
