"""The table of docs/PROVED.md that says what each promise rests on.

A row has the promise, the call, as in "`play`, clause `answers`" or "`play`, clause `answers`, for `run` alone" or, with all
its clauses, "`ra_lint::lint`", and how many definitions, lines and crates `bench/believe.py` counts for that."""
import re

import antt

ROW = re.compile(r"^\| ([^|]+) \| `([\w:]+)`(?:, clause `(\w+)`)?(, for `run` alone)? \|[\d |]*$", re.M)
HEADING = "## What each promise rests on\n"


def counted(text, count):
    """The text with the numbers of each row. `count` gives them by the words for a claim and whether it is for `run` alone."""
    front, heading, rest = text.partition(HEADING)
    table, following, behind = rest.partition("\n## ")
    _, _, rows = table.partition("|---|---|---|---|---|\n")
    unread = [line for line in rows.splitlines() if line and not ROW.match(line)]
    if not rows or unread:
        raise antt.Unplaced(f"docs/PROVED.md: {unread[0] if unread else 'the table is missing'}")

    def row(found):
        promise, call, clause, run = found.groups()
        words = f"{call} {clause}" if clause else call
        named = f"`{call}`" + (f", clause `{clause}`" if clause else "") + (run or "")
        return f"| {promise} | {named} | " + " | ".join(map(str, count(words, bool(run)))) + " |"

    return front + heading + ROW.sub(row, table) + following + behind
