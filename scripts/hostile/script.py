"""Scripts of docs/SCRIPTS.md, written by a program."""


def line(asked, answer=None, notes=()):
    """One line: what is asked, its answer, and what is noted meanwhile."""
    text = asked
    if answer is not None:
        text = f"{text:<14} => {answer}"
    if notes:
        text = f"{text:<43} | {'; '.join(notes)}"
    return text


class Script:
    """A script whose every line is expected by a plain machine."""

    def __init__(self, first, answer=None, notes=()):
        self.lines = [line(first, answer, notes)]

    def ask(self, asked, answer=None, notes=()):
        self.lines.append(line(asked, answer, notes))

    def end(self, notes=()):
        self.ask("end", None, notes)
        return "\n".join(self.lines) + "\n"


def events(text):
    """How much is asked in a script: its lines after the first, but for the clock's moments."""
    return sum(not asked.startswith("at ") for asked in text.splitlines()[1:])


def write(file, scripts):
    """Writes the texts of scripts as one file, which begins with how many events it has."""
    with open(file, "w", encoding="utf-8") as it:
        it.write(f"# {sum(map(events, scripts))} events\n\n")
        it.write("\n".join(scripts))
