"""How long the replies of `session`, `look` and `tries` are: the one table, for sessions in Python and on the page."""

REFUSED = "refused "
# How many lines the reply to a look has, by the look's first word; to any other one it has one. A reply that begins so is one line.
LOOKS = {"registers": 32, "controls": 24, "memory": 2}
WHOLE = (REFUSED, "none")
# Looks whose replies are lists, and how the last lines of these begin.
LISTS = ("blocks", "calls")
LIST_ENDS = (REFUSED, "next ", "end")
# How a report begins, and its last line.
REPORT, SUMMARY = "step ", "ERROR SUMMARY: "
# How the last line of the reply to a line of `tries` begins, by the line's first word.
TRIED, END = "tried ", "end"
TRIES = {"try": TRIED, "tries": END, "differs": END}


def extent(line, first):
    """Returns how many lines the reply to a line has at least, and how its last line begins, if that says where it ends. `first` is the
    reply's first line. What a look is asked says how long its reply is, as that may begin as a report does."""
    word, _, rest = line.partition(" ")
    if first.startswith(REFUSED):
        return 1, ()
    if word == "look":
        asked = (rest.split() + [""])[0]
        return (1, LIST_ENDS) if asked in LISTS else (1 if first.startswith(WHOLE) else LOOKS.get(asked, 1), ())
    if word in TRIES:
        return 1, (TRIES[word],)
    return 1, (SUMMARY,) if first.startswith(REPORT) else ()
