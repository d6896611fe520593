"""A picture of a run as one HTML file."""
import pathlib

from . import bars, rows, words
from .rows import escaped

HERE = pathlib.Path(__file__).resolve().parent
QUARTERS = bars.QUARTERS
# How wide a turn is at first, in pixels: the whole run where it fits, within these.
NARROWEST, WIDEST, ROOM = 10, 84, 1000
# What may stand behind the last turn, in pixels.
RIM = 48
# Of how many turns a run is so long that its bars are thin on paper.
LONG = 120
# How wide all turns are on paper, about, in pixels.
PAPER = 880
# How many lines of a box are seen at once.
AT_ONCE = 3
PATTERNS, SHADES = 6, (0, -9, 9)
LEGEND = (
    ("holds", "a stack holds an instance, in its colour and pattern, with its name or its letters"),
    ("waits", "it waits for that instance"),
    ("asleep", "it is asleep"),
    ("free", "it runs free"),
    ("act", "it is this stack's turn"),
    ("done", "it is done"),
    ("over", "a change that may have lost another stack's"),
)

NO_OVERWRITE = (
    '<section class="look none"><h2>No change came over another</h2><p>No stack changed a property that another had changed since it last held the instance. '
    "A stack that writes the value that is there already changes nothing.</p></section>"
)


def hue(instance):
    """The colour of an instance, where each is far from those before it."""
    return (210 + 137.508 * instance) % 360


def colours(names):
    """How each instance is drawn: in a colour, one of three shades and one of six patterns, so that neighbours differ in grey too."""
    rules = ("--h:{:.0f};--d:{}%;--p:var(--p{});--s:'{}';--w:{}ch".format(*how) for how in zip(*columns_of_colours(names)))
    return "".join(f".c{at}{{{rule}}}" for at, rule in enumerate(rules))


def columns_of_colours(names):
    """For all instances the colour, the shade, the pattern, the letters, and how wide the name is."""
    numbers = range(len(names))
    return map(hue, numbers), (SHADES[at % 3] for at in numbers), (at % PATTERNS for at in numbers), map(words.sign, numbers), (f"{0.9 * len(name) + 0.1:.2f}" for name in names)


def legend(recorder, overwrites):
    """What the signs mean that the picture has."""
    kinds = {bar.kind for stack in recorder.stacks for bar in stack.bars}
    kinds |= {"act"} if recorder.stacks else set()
    kinds |= {"done"} if any(stack.done is not None for stack in recorder.stacks) else set()
    kinds |= {"over"} if overwrites else set()
    sample = '<li class="{1}"><span><{0} class="{1}" style="--a:0;--n:4"></{0}></span>{2}</li>'
    return f'<ul class="legend">{"".join(sample.format("u" if kind == "act" else "i", kind, text) for kind, text in LEGEND if kind in kinds)}</ul>'


def ruler(shown, width):
    """The numbers of turns that are so many pixels wide, as far apart as their text needs."""
    step = next(step for step in (1, 2, 5, 10, 20, 50, 100, 200, 500, 1000, 2000) if step * width >= 44)
    return "".join(f'<b style="--a:{turn * QUARTERS}">{turn}</b>' for turn in range(0, shown, step))


def summary(recorder, names):
    parts = [words.turns(recorder.turns), words.counted(len(recorder.stacks), "stack"), words.counted(len(names), "instance")]
    waited = sum(sums.waited for sums in recorder.sums())
    return f"{words.listed(parts)}. {words.turns(recorder.idle).capitalize()} idle. Stacks waited {words.turns(waited)} in all for instances."


def cut_note(recorder):
    if recorder.turns <= recorder.shown():
        return ""
    shown = recorder.shown()
    return (
        f'<p class="note">The run has {words.turns(recorder.turns)}, and the first {shown:,} of them are drawn; the tables below tell of all. '
        f"To come nearer to a later place, <code>papyrus hold {shown} SCENE HELD PEX..</code> holds the run there in a file, "
        "and <code>papyrus resume TURNS HELD</code> goes on from it and reports.</p>"
    )


def not_ended(picture, recorder, names):
    """The stacks that don't end, above all."""
    first = picture.unfinished[: bars.LONGEST]
    if not first:
        return ""
    told = [(stack, words.of_unfinished(stack, picture.statuses[stack], recorder.standing(stack), names)) for stack in first]
    lines = [f'<li>{escaped(text)} <a href="#stack-{stack}">Show it</a></li>' for stack, text in told]
    count, every = len(picture.unfinished), len(recorder.stacks)
    heading = f"{count} of {words.counted(every, 'stack')} {'does' if count == 1 else 'do'}n't end"
    return f'<section class="look"><h2>{heading}</h2><p>After {words.turns(recorder.turns)}:</p>{listed(lines, count)}</section>'


def listed(lines, count):
    """The first of these lines, and the others where they are asked for, of so many that there are."""
    rest = count - len(lines)
    others = lines[AT_ONCE:] + [f"<li>and {rest} more</li>"] * (rest > 0)
    more = f"<details><summary>and {count - AT_ONCE} more</summary><ul>{''.join(others)}</ul></details>" if others else ""
    return f"<ul>{''.join(lines[:AT_ONCE])}</ul>{more}"


def look_here(picture, names):
    """What may be a lost update, on top."""
    if not picture.overwrites:
        return NO_OVERWRITE if picture.reports.wanted >= set(range(picture.recorder.turns + 1)) else ""
    first = picture.overwrites[: bars.LONGEST]
    texts = [escaped(words.of_overwrite(over, names)) for over in first]
    links = [f'<a href="#{picture.anchor_of(over)}">Show turn {over.change.turn}</a>' for over in first]
    lines = [f"<li>{text} {link}</li>" for text, link in zip(texts, links)]
    return (
        '<section class="look"><h2>Look here: an update may be lost</h2>'
        f"{listed(lines, len(picture.overwrites))}<p>If the new value was worked out from one that was read before, the other change is lost.</p></section>"
    )


def waits_table(recorder, names):
    sums = recorder.sums()
    order = sorted(range(len(names)), key=lambda at: (-sums[at].waited, at))
    cells = [(f'<a href="#instance-{at}">{escaped(names[at])}</a>', *(f"{number:,}" for number in sums[at])) for at in order]
    lines = ["".join(["<tr>", *(f"<td>{cell}</td>" for cell in row), "</tr>"]) for row in cells]
    head = "<tr><th>instance</th><th>turns of waiting</th><th>times taken</th><th>most at once</th></tr>"
    return f'<div><h2>Waits for instances</h2><table id="waits">{head}{"".join(lines)}</table></div>'


def longest_waits(recorder, names):
    lines = []
    for wait in recorder.longest_waits():
        text = escaped(words.of_wait(wait, names))
        drawn = wait.since < recorder.shown()
        lines.append(f'<a href="#wait-{wait.stack}-{wait.since}">{text}</a>' if drawn else f"{text} (behind what is drawn)")
    return f'<div><h2>The longest waits</h2>{rows.items(lines) or "<p>No stack waited.</p>"}</div>'


def bands(picture):
    """Marks the turns of what may be a lost update from top to bottom."""
    return "".join(f'<div class="band" style="--a:{over.change.turn * QUARTERS}"></div>' for over in picture.overwrites[: bars.LONGEST])


def chart(recorder, picture, names, width):
    """The picture itself: a row for each stack, and below them one for each instance."""
    shown = picture.shown
    stacks = "".join(map(picture.stack_row, range(len(recorder.stacks))))
    instances = "".join(map(picture.instance_row, range(len(names))))
    rim = RIM if any(one.done is not None for one in recorder.stacks) or picture.printed else 1
    head = f'<div class="row head"><div class="name">turn</div><div class="lanes"><div class="lane">{ruler(shown, width)}</div>'
    head += f'<div class="lane paper">{ruler(shown, PAPER / max(shown, 1))}</div></div></div>\n'
    return (
        f'<div class="chart{" long" if shown > LONG else ""}" tabindex="0" role="region" aria-label="The run, turn by turn">'
        f'<div class="sheet" style="--t:{shown};--q:{width / QUARTERS:g}px;--rim:{rim}px">\n'
        f'{head}{picture.turns_row()}{stacks}<div class="break"></div>\n{instances}{picture.untouched_row()}{bands(picture)}</div></div>\n'
    )


def page(title, recorder, names, statuses, reports):
    """The text of the HTML file."""
    width = min(max(ROOM // max(recorder.shown(), 1), NARROWEST), WIDEST)
    picture = rows.Rows(recorder, names, statuses, reports)
    style = (HERE / "page.css").read_text(encoding="utf-8") + colours(names)
    script = (HERE / "page.js").read_text(encoding="utf-8")
    tools = (
        '<form class="bar"><button type="button" data-zoom="out">&minus; farther</button><button type="button" data-zoom="in">+ nearer</button>'
        '<button type="button" data-zoom="fit">the whole run</button>'
        f'<label>turn <input name="turn" type="number" min="0" max="{max(picture.shown - 1, 0)}" value="0"></label><button>go there</button></form>\n'
    )
    return (
        '<!doctype html>\n<html lang="en">\n<meta charset="utf-8">\n<meta name="viewport" content="width=device-width">\n'
        f"<title>{escaped(title)}</title>\n<style>\n{style}\n</style>\n"
        "<noscript><style>.panel,.row.untouched{display:block}.row.untouched{display:grid}.bar,.row.rest{display:none}</style></noscript>\n"
        f"<h1>{escaped(title)}</h1>\n<p>{escaped(summary(recorder, names))}</p>\n"
        f"{cut_note(recorder)}{not_ended(picture, recorder, names)}{look_here(picture, names)}{legend(recorder, picture.overwrites)}{tools}{chart(recorder, picture, names, width)}"
        '<output class="read">Point at a bar, and it is told here. A name opens what there is of its row.</output>\n'
        f'<div class="tables">{waits_table(recorder, names)}{longest_waits(recorder, names)}</div>\n<script>\n{script}</script>\n</html>\n'
    )
