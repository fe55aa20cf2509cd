"""A source whose report is at hand, with the spelling of its values, and what `model` says of its states."""

import re
import subprocess

from hart import Report


class Differs(Exception):
    """An image that does something else than it should, or a text that says something else."""


def asked(stab, mode, job):
    """The exit number and the text of the program."""
    ended = subprocess.run([stab, mode], input=job.encode(), capture_output=True)
    return ended.returncode, ended.stdout.decode("latin-1")


def enumerators(canonical):
    """For each function with values in a list domain their names, by the canonical text of the source."""
    lists, names = {}, {}
    for line in canonical.split("\n"):
        found = re.fullmatch(r"domain (\w+) = \{ (.*) \}", line)
        if found:
            lists[found[1]] = found[2].split(" , ")
        found = re.fullmatch(r"(?:controlled|input|output) (\w+)(?: \(.*\))? : (\w+)", line)
        if found and found[2] in lists:
            names[found[1]] = lists[found[2]]
    return names


class Machine:
    """A source as the lines of `%source`, compiled."""

    def __init__(self, stab, name, source):
        self.stab, self.name, self.source = stab, name, source
        status, canonical = asked(stab, "check", source)
        if status:
            raise Differs("check answers %d: %s" % (status, canonical))
        status, text = asked(stab, "compile", source)
        if status:
            raise Differs("compile answers %d: %s" % (status, text))
        self.report = Report(text)
        self.names = enumerators(canonical)
        self.lines = {}
        self.after = {}

    def spelled(self, location, value):
        names = self.names.get(location.partition("(")[0])
        return names[value] if names else str(value)

    def fields(self, state):
        """The locations with their values, as a line of `model` shows them, each behind a blank."""
        return "".join(" %s=%s" % (location, self.spelled(location, value)) for location, value in state.items())

    def modelled(self, fields, readings, rounds):
        """What `model` shows of the states from this one on, without the words `step K`."""
        values = "".join("value %s %s\n" % tuple(field.split("=")) for field in fields.split())
        readings = "".join("in %x\n" % reading for reading in readings)
        status, text = asked(self.stab, "model", self.source + "%%run\nrounds %d\n%s%s" % (rounds, values, readings))
        if status:
            raise Differs("model answers %d: %s" % (status, text))
        return [" " + line.split(" ", 2)[2] if line.count(" ") > 1 else "" for line in text.split("\n")[:rounds + 1]]

    def shown(self, state):
        """A state as a head line shows it, by `model`, which tells whether it is legal."""
        fields = self.fields(state)
        if fields not in self.lines:
            self.lines[fields] = self.modelled(fields, [], 1)[0]
        return self.lines[fields]
