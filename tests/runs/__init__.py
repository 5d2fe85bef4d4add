"""The built program: its command lines, its files and what it prints."""
