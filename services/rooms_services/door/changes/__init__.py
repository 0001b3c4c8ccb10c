"""When each object changed, by whom, how large it is: kept beside the room, which keeps none."""
