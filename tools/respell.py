"""Brings the names of the calendar, the visits and their programs to the spelling of today's kit.

usage, at the top of a checkout that the kit's own port script has been through:
    python3 tools/respell.py

It was written for the first landing of this repository and changes nothing in a checkout that has today's names. Functions of src/ keep their names, as do strings,
inputs and outputs. It goes by text: it proves nothing, and it turns no proof that walks the code.
"""

import os
import re
import sys

CRATES = ("calendar", "visits", "due", "calendar_cases", "visits_cases")

# Definitions of specs/: functions in snake case, facts and relations in upper camel case, each with a name that says what it is.
DEFINITIONS = {
    # the calendar
    "gregorian": "gregorian_year", "leap": "is_leap", "ofThirty": "has_thirty_days", "monthLength": "month_length", "between": "is_between",
    "real": "is_real", "Real": "IsReal",
    "isDigit": "is_digit", "allDigits": "all_digits", "ifDigits": "if_digits", "digitOf": "digit_of", "twoAt": "two_at", "threeAt": "three_at",
    "written": "written_date", "numbered": "numbered_date", "dateAt": "date_at", "dateIn": "date_in",
    "onClock": "is_on_clock", "writtenStamp": "written_stamp", "stamped": "numbered_stamp", "stampAt": "stamp_at", "stampIn": "stamp_in",
    "stampOf": "stamp_of", "writtenMoment": "written_moment", "dateOf": "date_of", "writtenDay": "written_day", "Day-order": "DayOrder",
    "through": "days_through", "before": "days_before", "dayNumber": "day_number", "Before": "IsBefore", "isBefore": "is_before",
    "In-time": "InTime", "By-parts": "ByParts",
    "monthAfter": "month_after", "dueOf": "due_of", "monthCount": "month_count", "Final": "IsFinal", "Due-law": "DueLaw", "pastDue": "is_past_due",
    "dueText": "due_text",
    # the visits
    "writtenVisit": "written_visit", "dayOf": "day_of", "dateOn": "date_on", "replyTo": "reply_to", "isDue": "is_due",
    "LF": "line_feed", "CR": "carriage_return", "Unbroken": "IsUnbroken", "ends": "ends_in",
    "noted": "tally_with", "capped": "capped_count", "Went-on": "WentOn",
}

# Fields of records and lemmas: words joined by underscores.
JOINED = """
by-year by-month by-day not-before thirty-one leap-february new-year common-february no-day open-end
in-year in-month last-or-less through-up before-up month-end in-time parts-in-time
one-month last-real law-of due-made due-law due-count due-after none-past
none-some date-digits numbered-back date-back date-first date-written no-date stamp-back in-stamped stamp-written no-stamp day-exact moment-exact
figure-digit figure-back three-digits figure-shown two-shown three-shown digit-back digit-small two-first three-first
counted-more text-length long-reply front-reply cut-end told-on told-end complete-end one-rest kept-short left-more
""".split()

# `real` is a field too, and stays one.
FIELD = re.compile(r"^\s+pub real :|\breal = ")


def whole(name):
    return re.compile(r"(?<![\w'.-])" + re.escape(name) + r"(?![\w'-])")


def part(name):
    return re.compile(r"(?<![\w'-])" + re.escape(name) + r"(?![\w'-])")


WORDS = [(whole(old), new, old) for old, new in DEFINITIONS.items()] + [(part(old), old.replace("-", "_"), old) for old in JOINED]


def respelled(text):
    for pattern, new, old in WORDS:
        if old != "real":
            text = pattern.sub(new, text)
        elif FIELD.search(text):
            head, mark, rest = text.partition("real")
            text = head + mark + pattern.sub(new, rest)
        else:
            text = pattern.sub(new, text)
    return text


def of_definitions(line):
    """A line of an .antt file: its code, or the names in the list of words at its head."""
    listed = re.match(r"--     (\S.*?)(  +.*)$", line, re.DOTALL)
    if listed:
        return "--     " + respelled(listed[1]) + listed[2]
    return line if line.lstrip().startswith("--") else respelled(line)


def of_source(line):
    """A line of a .rt file: its clauses alone, and the allocator, whose parameter the kit calls alloc."""
    if re.match(r"\s*(ghost |requires |ensures )", line):
        return respelled(line)
    return of_edit(line)


def of_edit(line):
    return re.sub(r"\bheap\b", "alloc", line)


def rewrite(path, turn):
    with open(path, encoding="utf-8") as it:
        old = it.read()
    new = "".join(turn(line) for line in old.splitlines(keepends=True))
    if new != old:
        with open(path, "w", encoding="utf-8") as it:
            it.write(new)
        print(path)


def main():
    if not os.path.isdir("crates"):
        sys.exit("respell: no folder crates here")
    for crate in CRATES:
        for folder, below, files in os.walk(os.path.join("crates", crate)):
            below[:] = sorted(it for it in below if it != "out")
            for name in sorted(files):
                turn = {".antt": of_definitions, ".rt": of_source, ".edit": of_edit}.get(os.path.splitext(name)[1])
                if turn:
                    rewrite(os.path.join(folder, name), turn)


if __name__ == "__main__":
    main()
