"""A report of a session explained: who was called, what came, and why each call ended as it did."""
