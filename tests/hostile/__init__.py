"""Inputs of an enemy: what the program does with rulesets, captures, messages and words that nobody prepared."""
