"""A trace made as short as what it shows allows: event by event, then field by field."""
import trace_text


class Shortened:
    """`shows(lines)` says whether lines still show it; `tries` bounds how often it is asked."""

    def __init__(self, lines, head, shows, tries):
        self.head, self.lines, self.shows, self.left = lines[:head], lines[head:], shows, tries

    def is_shown(self, lines):
        if self.left <= 0:
            return False
        self.left -= 1
        return self.shows(self.head + lines)

    def run(self):
        """The shortest lines that were found."""
        self.drop_events()
        self.simplify_fields()
        self.drop_events()
        return self.head + self.lines

    def drop_events(self):
        size = max(1, len(self.lines) // 2)
        while size:
            at = 0
            while at < len(self.lines):
                shorter = self.lines[:at] + self.lines[at + size:]
                if self.is_shown(shorter):
                    self.lines = shorter
                else:
                    at += size
            size //= 2

    def simplify_fields(self):
        for number in range(len(self.lines)):
            for simpler in simpler_lines(self.lines[number]):
                lines = self.lines[:number] + [simpler] + self.lines[number + 1:]
                if self.is_shown(lines):
                    self.lines = lines
                    break


def simpler_lines(line):
    """A line with one field simpler, the simplest first."""
    event = trace_text.Line(trace_text.words_of(line))
    if event.word == "w" and event["value"]:
        yield " ".join(event.with_field("value", 0))
    if event.word in ("mw", "in"):
        for content in simpler_contents(event["content"]):
            yield " ".join(event.with_field("content", content))


def simpler_contents(content):
    """Shorter bytes, and as many with more zeros."""
    half, zeros = len(content) // 2, bytes(len(content))
    yield from (content[:length] for length in (1, half) if 0 < length < len(content))
    yield from (other for other in (zeros, content[:half] + zeros[half:], zeros[:half] + content[half:]) if other != content)
