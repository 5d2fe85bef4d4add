"""The program's command `standby`: what a standby holds that takes messages."""
