"""What pictures of sweeps share: sizes, the style, and texts as XML has them."""
import html

from replaycheck.guest.lines import LONGEST_SHOWN, shown_name

STYLE = """<style>
.bg{{fill:#ffffff}}.ink{{fill:#1a1a1a}}.dim{{fill:#555555}}
.s{{font-size:10px}}.e{{text-anchor:end}}.m{{text-anchor:middle}}.b{{font-weight:bold}}
.axis{{stroke:#555555;stroke-width:1}}
{light}
@media (prefers-color-scheme:dark){{
.bg{{fill:#161616}}.ink{{fill:#eeeeee}}.dim{{fill:#aaaaaa}}.axis{{stroke:#aaaaaa}}
{dark}
}}
</style>"""
LEFT, TOP, LEGEND_LINE, LEAST_MARK, NARROWEST, NARROWEST_OF_PANELS = 84, 72, 18, 3, 1060, 860


def xml(text, longest=LONGEST_SHOWN):
    """A text as XML has it: printable characters, all else as `\\x1b`, cut where it is long."""
    told = "".join(shown_name(text[at:at + LONGEST_SHOWN]) for at in range(0, min(len(text), longest), LONGEST_SHOWN))
    return html.escape(told[:longest] + ("..." if len(text) > longest else ""), quote=True)
