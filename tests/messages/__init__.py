"""Messages: what a standby is told of a run's states."""
