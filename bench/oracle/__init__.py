"""An independent answerer of queries by brute force, and a tester that goes by it."""
