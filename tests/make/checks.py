"""What a test says of each thing that isn't so, and how many there were."""
import sys


class Checks:
    def __init__(self, name: str):
        self.name, self.failed = name, 0

    def holds(self, is_so: bool, words: str) -> None:
        if not is_so:
            self.failed += 1
            print(f"{self.name}: not so: {words}", file=sys.stderr)
