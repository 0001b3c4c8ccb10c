"""Rooms as they were on earlier nights, for their users: nginx asks here, with the name that it has
checked."""
