"""The book that commits packets in batches."""
