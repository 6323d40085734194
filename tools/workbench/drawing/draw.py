"""What is drawn of a report, and which blocks of it."""
from __future__ import annotations

from argparse import Namespace
from .. import tool
from ..guest import guestfile, names, sources
from ..reports import report, timeline
from . import overview, page, svg, textlanes, traceevents

MOST = 2000  # blocks that are drawn each


def print_svg(line: timeline.Timeline, called: names.Names, first: int, last: int, asked: Namespace) -> None:
    of = line, first, last, called, asked.title
    picture = svg.detailed(*of) if last - first < asked.most else overview.Overview(*of).draw()
    for sentence in svg.sentences(line, first, last):
        picture.text(sentence)
    print(picture.svg(line.text.guards), end="")


def print_page(line: timeline.Timeline, called: names.Names, first: int, last: int, asked: Namespace) -> None:
    guest = (asked.file, sources.load(asked.guest, asked.file)) if asked.guest else None
    print(page.made(line, called, first, last, asked.title, guest), end="")


def window(asked: Namespace, count: int) -> tuple[int, int]:
    """The first and the last block that are drawn."""
    last = count - 1 if asked.to is None else min(asked.to, count - 1)
    if asked.first >= count:
        raise tool.Trouble(tool.WRONG, f"the report has {count} blocks, and none from {asked.first} on")
    if asked.first > last:
        raise tool.Trouble(tool.WORDS, f"--from {asked.first} is behind --to {asked.to}")
    return asked.first, last


def main(words: list[str]) -> None:
    parser = tool.words("draw")
    parser.report()
    forms = parser.add_mutually_exclusive_group()
    forms.add_argument("--text", action="store_const", dest="form", const=textlanes.show, help="for a terminal")
    forms.add_argument("--trace", action="store_const", dest="form", const=traceevents.show, help="trace events, JSON")
    forms.add_argument("--page", action="store_const", dest="form", const=print_page,
                       help="a page that steps through the run, HTML")
    parser.add_argument("--guest", metavar="GUEST", help="the guest's file, for names, and for the page's bytes")
    parser.number("--from", (0, 10**9), "the first block that is drawn", 0, "A", dest="first")
    parser.number("--to", (0, 10**9), "the last block that is drawn", metavar="B")
    parser.number("--most", (1, 100000), f"draw each block if there are at most N, else columns ({MOST})", MOST)
    parser.add_argument("--title", metavar="TEXT", help="the picture's heading")
    parser.add_argument("--colour", action="store_true", help="with --text: colours even into a file")
    asked = parser.parse_args(words)
    asked.file = guestfile.load(asked.guest) if asked.guest else None
    line = timeline.of(report.Report(tool.read_lines(asked.report)))
    text = line.text
    called = names.Names(text, asked.file)
    asked.title = asked.title or text.title()
    (asked.form or print_svg)(line, called, *window(asked, len(line.marks)), asked)
    text.tell_cut("draw")
