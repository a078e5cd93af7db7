"""The commands and the options of words.txt."""
import pathlib


class Command:
    def __init__(self, fields):
        self.name, self.words, self.does = fields
        self.about, self.example = "", ""


class Option:
    def __init__(self, fields):
        self.name, self.value, self.limits, self.default, commands, self.does = fields
        self.commands = commands.split()
        self.flag = f"--{self.name} {self.value}".strip()

    def line(self):
        """What it is, with its limits and its default."""
        limits = f": {self.limits}" if self.limits else ""
        default = f" ({self.default})" if self.default else ""
        return f"{self.does}{limits}{default}"


def table():
    """The commands and the options, in the order of words.txt."""
    lines = []
    for line in (pathlib.Path(__file__).resolve().parent / "words.txt").read_text(encoding="utf-8").split("\n"):
        if line.startswith(" "):
            lines[-1] += line
        elif line and not line.startswith("#"):
            lines.append(line)
    commands, options = [], []
    for line in lines:
        kind, rest = line.split(" ", 1)
        fields = [it.strip() for it in rest.split("|")]
        if kind == "command":
            commands.append(Command(fields))
        elif kind == "option":
            options.append(Option(fields))
        else:
            setattr(commands[-1], kind, rest)
    return commands, options
