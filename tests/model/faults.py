"""The faults of each input by number and name, as docs/DEFINITIONS.md lists them."""

NAMES = {
    "date": "NotADate OutOfRange",
    "crontab": "TooLong NulByte BadSetting UnknownWord MissingField BadNumber OutOfField Reversed"
    " BadStep StepOnNumber NoCommand TooManyJobs",
    "anacrontab": "TooLong NulByte BadSetting UnknownWord MissingField BadPeriod BadDelay"
    " BadIdentifier TwiceNamed Continued TooManyJobs",
    "declarations": "NotJson BadShape NoSuchLine Undeclared TwiceDeclared BadMax BadWeight"
    " BadCapacity ModeNeedsGroup UnknownGroup TooManyGroups BadHours ModeOnAnacron RebootLine"
    " BadPassMinute OtherCommand AmbiguousCommand BadParts OtherSchedule OtherParts BadZone"
    " HoursInZone PassInZone StartsTwice",
    "certificate": "TooLong NotJson BadVersion BadShape TooDeep BadSplit BadClass BadEntry"
    " TooManyClasses LeafTooLong",
    "script": "TooLong BadLine BadDate UnknownName NoStart",
}
NAMES["system"] = NAMES["crontab"] + " BadUser"


class Fault(Exception):
    """A fault of an input: which input, the name of what is wrong, and its place.

    The place is bytes: the line's number in a table or script, else words such as `cron 1`, or
    nothing where the fault is of the whole. A table that is gathered is called by its path.
    """

    def __init__(self, of, name, place=b"", path=None):
        self.of, self.name, self.path = of, name, path
        self.number = NAMES[of].split().index(name) + 1
        self.place = b"%d" % place if isinstance(place, int) else place

    def text(self):
        """Returns the fault as the program tells it, without the name of the program."""
        what = f"{self.number} {self.name}".encode()
        if self.path is not None:
            return b"%s line %s: %s" % (self.path, self.place, what)
        if self.of in ("crontab", "anacrontab", "script"):
            return b"%s line %s: %s" % (self.of.encode(), self.place, what)
        behind = b" at " + self.place if self.place else b""
        return b"%s: %s%s" % (self.of.encode(), what, behind)
