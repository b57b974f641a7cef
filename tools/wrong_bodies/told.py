"""What `rt ci` says of the crates that it proves, while it runs."""
import re
import threading

PROVED = re.compile(r"rt: (\w+) (?:proved|is kept: .*)$")


class Told:
    """The crates of which lines say that they are proved, as `rt ci` prints them."""

    def __init__(self, lines):
        self.lines, self.found, self.is_ended = lines, set(), False
        self.news = threading.Condition()
        threading.Thread(target=self.read, daemon=True).start()

    def read(self):
        for line in self.lines:
            found = PROVED.match(line.rstrip("\n"))
            if found:
                with self.news:
                    self.found.add(found[1])
                    self.news.notify_all()
        with self.news:
            self.is_ended = True
            self.news.notify_all()

    def crates(self):
        """The crates that are proved so far."""
        with self.news:
            return set(self.found)

    def is_all(self):
        """Whether no further crate will be told."""
        with self.news:
            return self.is_ended

    def wait(self):
        """Waits for further word, a second at most."""
        with self.news:
            if not self.is_ended:
                self.news.wait(1)
