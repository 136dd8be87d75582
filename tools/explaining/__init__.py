"""What tools/explain reads and says."""
