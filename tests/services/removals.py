"""The door's rule of who may remove what, against the program: removals.py < CASES, which
model/removing.py prints."""
import json
import sys

from rooms_services.door.folders.goes import barrier

wrong = count = may = 0
for line in sys.stdin:
    case = json.loads(line)
    by = barrier(case["own"], case["above"])
    removed = case["status"] == 204
    count += 1
    may += removed
    if (by == "") != removed or not removed and case["said"]["bits"] != by:
        wrong += 1
        print(by, line, end="")
print(f"{count} cases, {may} may, {wrong} differ")
