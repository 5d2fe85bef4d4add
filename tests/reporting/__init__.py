"""The program's command `report`, and what commands say of how far they have come."""
