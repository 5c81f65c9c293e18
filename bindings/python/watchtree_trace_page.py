"""The page of a run: one HTML file with its style and a few lines of script, and no network."""

import html
from typing import TYPE_CHECKING, List, TextIO

if TYPE_CHECKING:
    from watchtree_trace import Call, Lane, Row, Run, Told

# How many brackets lie beside one another.
TRACKS = 3

STYLE = """
:root { color-scheme: light dark; --ink: #1b1f24; --soft: #57606a; --ground: #fff; --line: #d0d7de; --band: #f6f8fa;
  --fill: #9ec5fe; --joined: #0b5cad; --merged: #6e5494; --lost: #b42318; --read: #1a7f37; }
@media (prefers-color-scheme: dark) { :root { --ink: #e6edf3; --soft: #9da7b1; --ground: #0d1117; --line: #3d444d;
  --band: #151b23; --fill: #1f4b80; --joined: #79b8ff; --merged: #c8a6ff; --lost: #ff9d94; --read: #6bd58a; } }
* { box-sizing: border-box; }
body { margin: 0; padding: 1rem; background: var(--ground); color: var(--ink); font: 15px/1.45 system-ui, sans-serif; }
h1 { font-size: 1.3rem; margin: 0 0 .3rem; overflow-wrap: anywhere; }
p { margin: .3rem 0; max-width: 60rem; }
ul.key { display: flex; flex-wrap: wrap; gap: .3rem 1rem; padding: 0; margin: .6rem 0; list-style: none; }
code, .mark { font-family: ui-monospace, "DejaVu Sans Mono", monospace; font-size: .87em; }
.wide { overflow: auto; max-height: 85vh; border: 1px solid var(--line); }
table { border-collapse: separate; border-spacing: 0; min-width: 100%; }
th, td { text-align: left; vertical-align: top; padding: .15rem .5rem; border-bottom: 1px solid var(--line); }
thead th { position: sticky; top: 0; z-index: 1; background: var(--band); font-weight: 600; }
thead small { display: block; font-weight: 400; color: var(--soft); }
tbody th { font-weight: 400; color: var(--soft); text-align: right; }
td.call { min-width: 14rem; max-width: 26rem; overflow-wrap: anywhere; }
td.reply { min-width: 8.5rem; max-width: 14rem; overflow-wrap: anywhere; }
td.lane { position: relative; min-width: 17rem; height: 1.7rem; border-left: 1px solid var(--line);
  padding: .15rem .4rem .15rem 5.6rem; }
td.on { background: linear-gradient(var(--soft), var(--soft)) 4rem 0 / 2px 100% no-repeat,
  linear-gradient(var(--fill), var(--fill)) 0 0 / calc(4rem * var(--part)) 100% no-repeat; }
td.far { background: linear-gradient(var(--fill), var(--fill)) 0 0 / calc(4rem * var(--part)) 100% no-repeat; }
tr:focus-within, tr:focus { outline: 3px solid var(--joined); outline-offset: -3px; }
tr.refused td.reply { color: var(--lost); }
.count { position: absolute; left: .3rem; top: .2rem; font-size: .75em; }
.brackets i { position: absolute; top: 0; bottom: -1px; width: .4rem; border-left: 2px solid var(--read); }
.brackets i.from, .brackets i.only { top: .6rem; border-top: 2px solid var(--read); }
.brackets i.to, .brackets i.only { bottom: .5rem; border-bottom: 2px solid var(--read); }
.mark { display: inline-block; border: 1px solid currentColor; border-radius: .3rem; overflow-wrap: anywhere;
  padding: 0 .35rem; margin: 0 .2rem .15rem 0; }
.joined { color: var(--joined); } .merged { color: var(--merged); border-style: dashed; }
.lost { color: var(--lost); border-style: double; border-width: 3px; text-decoration: line-through; }
.mark b { font-weight: 600; } .mark a { color: inherit; }
.took { color: var(--read); font-size: .87em; }
.aside { position: absolute; width: 1px; height: 1px; overflow: hidden; clip-path: inset(50%); white-space: nowrap; }
body:has(#quiet:checked) tr.quiet { display: none; }
@media (max-width: 700px) {
  body { padding: .5rem; } .wide { max-height: none; overflow: visible; border: 0; }
  table, tbody, tr { display: block; } thead { display: none; }
  tr { border-bottom: 1px solid var(--line); padding: .25rem .2rem; }
  tbody th, td.call, td.reply { display: inline-block; border: 0; padding: 0 .5rem 0 0; min-width: 0; max-width: 100%; }
  td.reply code::before { content: "→ "; }
  td.lane { display: block; height: auto; min-height: 2.6rem; border: 0; min-width: 0; } td.lane.none { display: none; }
  td.lane::before { content: attr(data-lane); display: block; font-size: .8em; color: var(--soft); }
}
"""

SCRIPT = """
const rows = [...document.querySelectorAll("tbody tr")];
const shown = () => rows.filter(row => row.offsetParent !== null);
function go(row) {
  if (!row) return;
  rows.forEach(each => each.tabIndex = -1);
  row.tabIndex = 0;
  row.focus();
  row.scrollIntoView({ block: "nearest" });
}
document.querySelector("tbody").addEventListener("keydown", event => {
  const all = shown(), at = all.indexOf(event.target.closest("tr"));
  const last = all.length - 1;
  const to = { ArrowDown: at + 1, ArrowUp: at - 1, Home: 0, End: last,
    PageDown: Math.min(at + 20, last), PageUp: Math.max(at - 20, 0) }[event.key];
  if (to === undefined) return;
  event.preventDefault();
  go(all[to]);
});
"""


def mask_of(told: "Told") -> str:
    """Returns the names of a mask's bits, as inotify(7) has them without their prefix."""
    mask = told.event.mask
    names = [bit.name or hex(bit) for bit in type(mask) if bit in mask and bit.name != "ALL_EVENTS"]
    return "|".join(names) or hex(mask)


def mark(told: "Told") -> str:
    """A record as a mark: what it is, what became of it, and where it was read."""
    event = told.event
    words = [f"wd {event.wd}", f"<b>{mask_of(told)}</b>"]
    words += [html.escape(event.name)] if event.name else []
    words += [f"cookie {event.cookie}"] if event.cookie else []
    words += [told.fate] if told.fate != "joined" else []
    if told.read_at is not None:
        words.append(f'<a class="aside" href="#line-{told.read_at}">read at line {told.read_at}</a>')
    return f'<span class="mark {told.fate}">{" ".join(words)}</span>'


def bracket(number: int, how: str, is_read: bool) -> str:
    """A piece of a read's bracket. Brackets that meet lie beside one another."""
    kind = "only" if how == "from" and is_read else how
    return f'<i class="{kind}" style="left:{4.25 + 0.42 * (number % TRACKS):.2f}rem"></i>'


def scale_of(lane: "Lane") -> int:
    """Returns how many records fill the line: the limit, where the queue came near enough to it to show."""
    peak = max((row.waiting for row in lane.rows.values()), default=0)
    return lane.limit if lane.limit <= 4 * peak else max(2 * peak, 4)


def cell(lane: "Lane", row: "Row", scale: int) -> str:
    """An instance at one call."""
    last = len(row.brackets) - 1 if row.taken is not None else -1
    pieces = [bracket(it, how, at == last) for at, (it, how) in enumerate(row.brackets.items())]
    took = "" if row.taken is None else f'<span class="took">read {row.taken}</span>'
    kinds = ["lane", "on" if scale == lane.limit else "far"] + ([] if row.told or took else ["none"])
    return (
        f'<td class="{" ".join(kinds)}" data-lane="instance {lane.number}" style="--part:{row.waiting / scale:.3f}">'
        f'<span class="count">{row.waiting}<span class="aside"> of {lane.limit} wait.</span></span>'
        f'<span class="brackets" aria-hidden="true">{"".join(pieces)}</span>{"".join(map(mark, row.told))}{took}</td>'
    )


def line(call: "Call", lanes: List["Lane"], scales: List[int]) -> str:
    """A call with its reply and every instance."""
    rows = [lane.rows.get(call.number) for lane in lanes]
    is_quiet = not any(row and (row.told or row.taken is not None) for row in rows)
    kinds = (["quiet"] if is_quiet else []) + (["refused"] if call.reply.startswith("err") else [])
    empty = '<td class="lane none"></td>'
    cells = [cell(*it) if it[1] else empty for it in zip(lanes, rows, scales)]
    return (
        f'<tr id="line-{call.number}" class="{" ".join(kinds)}" tabindex="-1"><th scope="row">{call.number}</th>'
        f'<td class="call"><code>{html.escape(call.line)}</code></td>'
        f'<td class="reply"><code>{html.escape(call.reply)}</code></td>{"".join(cells)}</tr>'
    )


def head(lane: "Lane", scale: int) -> str:
    """The head of an instance's lane."""
    full = f"queue of {lane.limit}" if scale == lane.limit else f"queue of {lane.limit}; the line is full at {scale}"
    return f'<th scope="col">Instance {lane.number}<small>{full}</small></th>'


def summary(run: "Run") -> str:
    """The run in numbers."""
    told = [told for lane in run.lanes.values() for row in lane.rows.values() for told in row.told]
    count = {fate: sum(it.fate == fate for it in told) for fate in ("joined", "merged", "lost")}
    read = sum(it.read_at is not None for it in told)
    refused = sum(call.reply.startswith("err") for call in run.calls)
    return (
        f"{len(run.calls)} calls, {refused} of them refused; {len(run.lanes)} instances. "
        f"Records: {count['joined']} joined, {count['merged']} merged, {count['lost']} lost; {read} read."
    )


def write(out: TextIO, name: str, run: "Run") -> None:
    """Writes the page."""
    lanes = list(run.lanes.values())
    scales = [scale_of(lane) for lane in lanes]
    title = html.escape(f"watchtree: {name}")
    out.write(
        f'<!doctype html>\n<html lang="en"><head><meta charset="utf-8"><title>{title}</title>'
        f'<meta name="viewport" content="width=device-width, initial-scale=1"><style>{STYLE}</style></head><body>'
        f"<h1>{title}</h1><p>{summary(run)}</p>"
        '<ul class="key"><li><span class="mark joined">joined the queue</span></li>'
        '<li><span class="mark merged">merged into an equal record</span></li>'
        '<li><span class="mark lost">lost: the queue was full</span></li>'
        '<li>the bar: how many records wait</li><li><span class="took">[</span> what one read took</li>'
        '<li><label><input type="checkbox" id="quiet"> hide calls that raised no events</label></li></ul>'
        "<p>Arrow keys, Page Up, Page Down, Home and End go from call to call.</p>"
        '<div class="wide"><table><thead><tr>'
        '<th scope="col">Line</th><th scope="col">Call</th><th scope="col">Reply</th>'
        f'{"".join(map(head, lanes, scales))}</tr></thead><tbody>\n'
    )
    for call in run.calls:
        out.write(line(call, lanes, scales) + "\n")
    out.write(f"</tbody></table></div><script>{SCRIPT}rows.length && (rows[0].tabIndex = 0);</script></body></html>\n")
