"""What rooms-admin says, and how its words are read."""
