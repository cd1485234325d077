"""What was promised, and whether it is so."""


class Tally:
    def __init__(self):
        self.passed, self.failed = 0, 0

    def check(self, what, good, found=""):
        if good:
            self.passed += 1
            return
        self.failed += 1
        print(f"  FAILED {what}: {str(found)[:900]}", flush=True)
