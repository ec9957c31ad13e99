"""Counts of what was right and wrong."""


class Counts:
    """How many things were right and wrong."""

    def __init__(self):
        self.right = self.wrong = 0

    def check(self, what, is_right, found=""):
        """Counts one thing that is to be so."""
        self.right, self.wrong = self.right + is_right, self.wrong + (not is_right)
        if not is_right:
            print(f"wrong: {what}: {found}")

    def end(self):
        """Prints both; answers the status of a script."""
        print(f"{self.right} passed, {self.wrong} failed")
        return 1 if self.wrong else 0
