"""Tests of the page of a run: what became of each record, and that the page is whole and needs no network."""

import io
import os
import unittest
from html.parser import HTMLParser

import watchtree_trace
import watchtree_trace_page
from watchtree import Mask, Tree

TOP = os.path.dirname(os.path.dirname(os.path.dirname(os.path.realpath(__file__))))
VOID = {"meta", "input", "br"}


class Page(HTMLParser):
    """Reads a page: its rows, its marks, and whether each element ends."""

    def __init__(self) -> None:
        super().__init__()
        self.open, self.rows, self.marks, self.outside = [], [], [], []

    def handle_starttag(self, tag, attrs):
        found = dict(attrs)
        self.outside += [name for name in ("src", "href") if found.get(name, "#")[0] != "#"]
        if tag not in VOID:
            self.open.append(tag)
        if tag == "tr" and found.get("id"):
            self.rows.append(found["id"])
        if "mark" in found.get("class", "").split():
            self.marks.append(found["class"].split()[1])

    def handle_endtag(self, tag):
        assert self.open and self.open[-1] == tag, f"</{tag}> ends {self.open[-1:]}"
        self.open.pop()


def run_of(text: str) -> watchtree_trace.Run:
    return watchtree_trace.run(io.StringIO(text))


def page_of(run: watchtree_trace.Run) -> Page:
    out = io.StringIO()
    watchtree_trace_page.write(out, "a < b", run)
    page = Page()
    page.feed(out.getvalue())
    page.close()
    return page


def fates(run: watchtree_trace.Run, instance: int):
    """What became of each record, with the line that read it."""
    every = [(line, told) for line, row in run.lanes[instance].rows.items() for told in row.told]
    return [(line, watchtree_trace_page.mask_of(told), told.fate, told.read_at) for line, told in every]


class Trace(unittest.TestCase):
    def test_a_record_joins_merges_or_is_lost(self):
        calls = "create /a 644\nunlink /a\nmkdir /b 755\nrmdir /b\nread 1 64\nread 1 64\n"
        run = run_of(f"init 1\nwatch 1 / 0x600\n{calls}")
        lost = [(6, "DELETE|ISDIR", "lost", None), (6, "Q_OVERFLOW", "joined", 7)]
        self.assertEqual(fates(run, 1), [(4, "DELETE", "joined", 7), *lost])
        run = run_of("mkdir /d 755\ninit\nwatch 1 /d 0x4\nchmod /d 700\nchmod /d 711\nread 1 64\n")
        self.assertEqual([it[2:] for it in fates(run, 1)], [("joined", 6), ("merged", None)])

    def test_the_example_is_one_page(self):
        with open(f"{TOP}/examples/inbox.script", encoding="ascii") as script:
            run = watchtree_trace.run(script)
        page = page_of(run)
        self.assertEqual(len(page.rows), 28)
        self.assertEqual((page.open, page.outside), ([], []))
        # Three of them are the key.
        self.assertEqual([page.marks.count(it) for it in ("joined", "merged", "lost")], [26, 2, 2])

    def test_a_journal_is_a_script(self):
        with Tree() as tree, tree.inotify() as instance:
            instance.add_watch("/", Mask.CREATE)
            tree.create("/a")
            instance.read()
            with self.assertRaises(FileExistsError):
                tree.mkdir("/a")
            of_tree, of_text = watchtree_trace.run(tree), run_of(tree.script())
        for run in of_tree, of_text:
            self.assertEqual([(it.number, it.reply) for it in run.calls][2:], [(5, "ok 2"), (7, "ok 32"), (10, "err EEXIST 17")])
            self.assertEqual(fates(run, 1), [(5, "CREATE", "joined", 7)])

    def test_a_line_that_is_no_command_is_a_fault(self):
        with self.assertRaisesRegex(watchtree_trace.Fault, "line 2: unknown command: watchtree.1. has all commands"):
            run_of("init\nfly /d\n")
        with self.assertRaisesRegex(watchtree_trace.Fault, "line 2: bad mask: it is 0x and 1 to 8 hexadecimal digits"):
            run_of("init\nwatch 1 / 256\n")


if __name__ == "__main__":
    unittest.main()
