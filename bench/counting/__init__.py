"""The situations and the tables of a trace, counted by reading its lines."""
