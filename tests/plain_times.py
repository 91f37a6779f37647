"""A plain model of the time in a line of a log, by the rules of FORMATS: regular expressions, and the calendar of Python."""
import datetime
import re

CLOCK = r"(?P<hour>[01]\d|2[0-3]):(?P<minute>[0-5]\d):(?P<second>[0-5]\d|60)([.,](?P<part>\d*))?"
ZONE = r"Z|(?P<sign>[+-])(?P<hours>\d\d):?(?P<minutes>[0-5]\d)"
FORMS = [rf"@?(?P<year>\d{{4}})[/-](?P<month>\d\d)[/-](?P<day>\d\d)[ T]{CLOCK}({ZONE})?", CLOCK,
         r"(?P<seconds>\d{1,12})(\.(?P<part>\d*))?", r"(?P<milliseconds>\d{13})"]
TIMES = [re.compile(around.format(form), re.ASCII)
         for form in FORMS for around in (r"[ \t]*{}(?=[ \t\r]|\Z)", r"[ \t]*\[{}\](?=[ \t\r]|\Z)")]
KEPT, LONGEST = 40, 39                  # characters behind the blocks and a space
SECOND, MINUTE = 1_000_000, 60_000_000
DAY = 1440 * MINUTE


def days_before(year, month, day):
    """Returns the days from the first day of the year 0. None if there is no such day."""
    try:
        # Python has no year 0. It is a leap year, as 400 is.
        return datetime.date(year or 400, month, day).toordinal() + (365 if year else -145_732)
    except ValueError:
        return None


def of_form(found):
    """Returns the time in microseconds of what was found. None if there is no such time."""
    has = found.groupdict()
    part = int(f"{has.get('part') or '':0<6.6}")
    if has.get("milliseconds"):
        return int(has["milliseconds"]) * 1000
    if has.get("seconds"):
        return int(has["seconds"]) * SECOND + part
    days, zone = 0, 0
    if has.get("year"):
        days = days_before(int(has["year"]), int(has["month"]), int(has["day"]))
        if days is None:
            return None
        if has["sign"]:
            zone = int(has["sign"] + "1") * (int(has["hours"]) * 60 + int(has["minutes"]))
    time = days * DAY + (int(has["hour"]) * 60 + int(has["minute"]) - zone) * MINUTE + int(has["second"]) * SECOND + part
    return time if time >= 0 else None


def time_in(text):
    """Returns the time in microseconds in what follows the blocks and a space, and where it ends. None without a time."""
    for form in TIMES:
        found = form.match(text[:KEPT])
        time = of_form(found) if found and found.end() <= LONGEST else None
        if time is not None:
            return time, found.end()
    return None
