"""The program's command `diff`: which packets of a capture come to something else by another ruleset."""
