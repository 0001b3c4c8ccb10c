"""Users change their own passwords: nginx asks here, with the name that it has checked."""
