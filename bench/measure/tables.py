# SPDX-License-Identifier: Apache-2.0
"""The page of results: a head with the machine, and a table for each subject, in Markdown. What a series of figures comes to: the median,
the spread, and who is ahead."""
from statistics import geometric_mean, median

from . import machine

# facts that differ from run to run as a matter of course
OWN = ("Date",)
# two medians that differ by less are a tie, whatever their spreads
NEAR = 0.02


def ratio(ours, theirs):
    """Returns our median by theirs, or None if theirs is zero."""
    return median(ours) / median(theirs) if median(theirs) > 0 else None


def verdict(ours, theirs):
    """Returns `tie` if the spreads of two series overlap or the medians nearly agree, else `vdb` or `peer`: the one with less."""
    by = ratio(ours, theirs)
    if by is None or abs(by - 1) < NEAR or (min(ours) <= max(theirs) and min(theirs) <= max(ours)):
        return "tie"
    return "vdb" if by < 1 else "peer"


def short(number):
    """Returns a number with three digits that count."""
    if number == 0:
        return "0"
    for least, digits in ((100, 0), (10, 1), (1, 2), (0.1, 3), (0.01, 4)):
        if number >= least:
            return f"{number:,.{digits}f}"
    return f"{number:.5f}"


def cell(series):
    """Returns the median of a series, with the least and the greatest if they differ."""
    if not series:
        return "-"
    least, greatest = short(min(series)), short(max(series))
    return short(median(series)) + (f" ({least} to {greatest})" if least != greatest else "")


def line(cells):
    return f"| {' | '.join(cells)} |"


def compared(table, also_unlike=False):
    """Yields each row with its ratio and verdict, None and an empty text if it has no peer that does the same, unless `also_unlike` is set."""
    for row in table["rows"]:
        ours, theirs = row["series"].get("vdb"), row["series"].get(table["base"])
        if ours and theirs and ratio(ours, theirs) and (also_unlike or not row.get("unlike")):
            yield row, ratio(ours, theirs), verdict(ours, theirs)
        else:
            yield row, None, ""


def summary(table):
    """Returns who is ahead how often, and the geometric mean of the ratios."""
    found = [(by, ahead) for _, by, ahead in compared(table) if by]
    if not found:
        return "No row has a peer."
    ahead = [it for _, it in found]
    mean = geometric_mean([by for by, _ in found])
    return (
        f"Of {len(found)} rows with a peer vdb is ahead in {ahead.count('vdb')}, {table['peer']} in {ahead.count('peer')}, and {ahead.count('tie')} are ties."
        f" The geometric mean of the ratios is {mean:.2f}."
    )


def unlike(table):
    """Yields why some rows compare unlike work, and are excluded from counts and means."""
    whys = {row.get("unlike"): [it["name"] for it in table["rows"] if it.get("unlike") == row.get("unlike")] for row in table["rows"] if row.get("unlike")}
    for why, names in whys.items():
        yield f"- Marked `unlike` and left out of the counts and the mean: {', '.join(names)}. Reason: {why}."


def markdown(table):
    """Yields the lines of a table."""
    units = {row["unit"] for row in table["rows"]}
    names = [*dict.fromkeys(name for row in table["rows"] for name in row["more"])]
    heads = ["Row", *(["Unit"] if len(units) > 1 else []), *table["headings"].values(), f"vdb / {table['headings'][table['base']]}", "Ahead", *names]
    yield f"### {table['title']}"
    yield ""
    yield table["note"] + (f" Figures are in {units.pop()}." if len(units) == 1 else "")
    yield ""
    yield line(heads)
    yield line("---" for _ in heads)
    with_unit = "Unit" in heads
    for row, by, ahead in compared(table, also_unlike=True):
        ahead = "unlike" if row.get("unlike") else table["peer"] if ahead == "peer" else ahead
        series = [cell(row["series"].get(key)) for key in table["headings"]]
        unit = [row["unit"]] if with_unit else []
        yield line([row["name"], *unit, *series, f"{by:.2f}" if by else "-", ahead or "-", *(row["more"].get(name, "") for name in names)])
    yield ""
    yield summary(table)
    yield ""
    notes = [*unlike(table)]
    yield from [*notes, ""] if notes else []


def measured(part, head):
    """Returns when and how a part was measured, with the facts in which it differs from the head."""
    load = part["load"]
    runs = "1 run" if part["runs"] == 1 else f"{part['runs']} runs"
    text = f"{part['facts']['Date']}, {runs}, in {part['seconds'] / 60:.1f} minutes, load average {load[0]} before."
    if not machine.is_idle(load):
        text += " **The machine wasn't idle in the minute before, so these figures may be worth little.**"
    if part["quick"]:
        text += " **A quick run, with fewer rows and runs.**"
    other = [f"{name}: {fact}" for name, fact in part["facts"].items() if name not in OWN and fact != head.get(name)]
    return text + (f" Measured with {'; '.join(other)}." if other else "")


def page(parts):
    """Returns the whole page."""
    head = max((it["facts"] for it in parts.values()), key=lambda facts: facts["Date"])
    lines = ["# Results", "", "`bench/all` wrote this page.", "", "| | |", "| --- | --- |"]
    lines += [line([name, fact]) for name, fact in head.items()]
    lines += [
        "",
        "Each figure is the median of all runs, with the least and the greatest in brackets. The programs take turns within a run. A row is a tie if the"
        " brackets of vdb and of its peer overlap, or if the medians differ by less than 2 %. A ratio below 1 means that vdb takes less.",
        "",
        "![Ratios of vdb to OpenVDB, row by row](chart.svg)",
        "",
    ]
    for name, part in parts.items():
        lines += [f"## {name.capitalize()}", "", measured(part, head), ""]
        for failed in part["failed"]:
            lines += [f"**Failed in the last run:** {failed}", ""]
        for table in part["tables"]:
            lines += markdown(table)
    return "\n".join(lines).rstrip() + "\n"
