"""What is looked at to say whether all is well, and why a room can't be opened."""
