"""What lists, reviews and records of a room say, and whom they name."""
