"""The tables and the plot of a run."""
import os

from explorer import picture

TRY_COLUMNS = ("bound", "try", "round", "tried_at", "beginning", "order", "answer", "area", "depth", "literals", "maximum",
               "seconds", "mean_error", "error_rate", "vectors")
BOUND_COLUMNS = ("metric", "bound", "maximum", "area", "area_of_in", "area_left", "depth_of_in", "depth_left", "literals_of_in",
                 "literals_left", "mean_error", "error_rate", "vectors", "verified_by", "minimal", "tries", "seconds", "beginning",
                 "order")
SHOWN = {"bound": "bound", "maximum": "maximum", "area_of_in": None, "area_left": "left", "depth_of_in": "depth",
         "depth_left": "left", "literals_of_in": "literals", "literals_left": "left", "mean_error": "mean error",
         "error_rate": "error rate", "verified_by": "verified by", "tries": "tries"}


def shown(number):
    """A number to six digits."""
    return "%.6g" % number if isinstance(number, float) else str(number)


def counted(answer):
    """Of how many vectors the mean error and the error rate are."""
    return "all %d" % answer["vectors"] if answer["are_all"] else "%d of a seed" % answer["vectors"]


def try_row(bound, one):
    """The row of a try."""
    answer, told = one.answer, ["" for _ in range(8)]
    if not answer["number"]:
        told = [answer[it] for it in ("area", "depth", "literals", "maximum", "seconds", "mean", "rate")] + [counted(answer)]
    line = "done" if not answer["number"] else answer["line"].removeprefix("salsa: ")
    return [bound, one.number, one.round, one.bound, one.beginning, one.order if one.is_refined else "not refined", line,
            *map(shown, told)]


def bound_row(words, bound, found, before, count, seconds):
    """The row of a bound with its winner."""
    one, report, verified_by = found
    answer = one.answer
    return [words.metric, bound, report["maximum"][0], words.told_area, shown(before["area"]), shown(answer["area"]), before["depth"],
            answer["depth"], *report["literals"], shown(answer["mean"]), shown(answer["rate"]), counted(answer), verified_by,
            report["minimal"][0], count, "%.1f" % seconds, one.beginning, one.order]


def lines_of(columns, rows):
    """A table with tabs."""
    return "".join("\t".join(str(cell).replace("\t", " ") for cell in row) + "\n" for row in (columns, *rows))


def aligned(area, rows):
    """The table that is printed."""
    places = [BOUND_COLUMNS.index(it) for it in SHOWN]
    lines = [[it or area for it in SHOWN.values()], *([str(row[at]) for at in places] for row in rows)]
    widths = [max(len(line[at]) for line in lines) for at in range(len(places))]
    return "".join("  ".join(cell.ljust(width) for cell, width in zip(line, widths)).rstrip() + "\n" for line in lines)


def put(path, text):
    """A whole file, in the place of an earlier one."""
    begun = "%s.%d.new" % (path, os.getpid())
    try:
        with open(begun, "w", encoding="utf-8", errors="surrogateescape") as file:
            file.write(text)
        os.replace(begun, path)
    finally:
        if os.path.exists(begun):
            os.unlink(begun)


def plot(words, before, tries, rows):
    """Area against bound, with each try and the front; and area against tries, for each bound."""
    at_bound = picture.Panel("%s, %s" % (words.area, words.metric), picture.bound_name(words.metric), picture.AREAS[words.area], True)
    done = [(bound, one) for bound, one in tries if not one.answer["number"]]
    at_bound.points = [(int(one.bound), one.answer["area"]) for _, one in done]
    front = [(int(row[1]), float(row[5])) for row in rows]
    at_bound.lines = [("", front, True)]
    by_tries = picture.Panel("best so far", "tries", picture.AREAS[words.area], False)
    for bound in sorted({it for it, _ in done}):
        best, line = before["area"], []
        for count, one in enumerate((one for it, one in done if it == bound and int(one.bound) <= bound), 1):
            best = min(best, one.answer["area"])
            line.append((count, best))
        by_tries.lines.append(("bound %d" % bound, line, True))
    return picture.svg([at_bound, by_tries], 90)
