"""What a look of `check` gives: findings, which are levels and texts."""
OK, WARNING, CRITICAL = 0, 1, 2
Finding = tuple[int, str]
