"""The signs of a drawing, each drawn once in a cell of 40 by 40 and used from there. Every sign differs from the others in shape or
letters, not in colour alone, so that a page printed in black and white can be read."""
from __future__ import annotations

from typing import Dict, Tuple

CELL = 40
# kind: fill and letters. Solid has a hatch instead, as floors and walls are made of it
KIND_SIGNS: Dict[str, Tuple[str, str]] = {
    "transparent": ("#e3f4fc", "Tr"), "redstone-wire": ("#f7c9c4", "Rw"), "redstone-torch": ("#ffd8a8", "Rt"),
    "repeater": ("#dcdcf5", "Re"), "comparator": ("#d0ecd8", "Co"), "lever": ("#efe0c8", "Le"), "button": ("#ead6ea", "Bu"),
    "pressure-plate": ("#dfe8c0", "Pp"), "redstone-lamp": ("#fff3a6", "La"), "redstone-block": ("#ef9a8c", "Rb"),
    "piston": ("#cfe3e8", "Pi"),
}
KIND_NAMES = {"air": "Air", "solid": "Solid", "transparent": "Transparent", "redstone-wire": "RedstoneWire",
              "redstone-torch": "RedstoneTorch", "repeater": "Repeater", "comparator": "Comparator", "lever": "Lever",
              "button": "Button", "pressure-plate": "PressurePlate", "redstone-lamp": "RedstoneLamp",
              "redstone-block": "RedstoneBlock", "piston": "Piston"}
# colours that colour-blind eyes tell apart (Okabe and Ito), each with a pattern of dashes
COLOURS = ["#0072b2", "#d55e00", "#009e73", "#b0468c", "#8a5a00", "#3a8fc4", "#000000", "#a8201a"]
DASHES = ["", "11 5", "2 6", "14 5 2 5"]

_OTHER = {
    "solid": '<rect class="solid" width="40" height="40"/><path class="hatch" d="M0 14L14 0M0 34L34 0M8 40L40 8M28 40L40 28"/>',
    "conductor": '<path class="other-full" d="M20 5L35 20L20 35L5 20z"/><path class="other-cross" d="M14 14L26 26M26 14L14 26"/>',
    "clearance": '<path class="other-line" d="M20 6L34 20L20 34L6 20z"/>',
    "terminal": '<path class="other-line" d="M20 6L34 20L20 34L6 20z"/><circle class="other-dot" cx="20" cy="20" r="5"/>',
    "reserved": '<rect class="reserved" x="4" y="4" width="32" height="32"/><text class="letters" x="20" y="26">R</text>',
    "blocked": '<path class="blocked" d="M15 15L25 25M25 15L15 25"/>',
    "support": '<rect class="support" x="8" y="8" width="24" height="24"/><text class="tiny" x="20" y="23">sup</text>',
    "marked": '<rect class="marked" x="0" y="0" width="40" height="40"/><circle class="flag" cx="39" cy="1" r="9"/>'
              '<text class="bang" x="39" y="7">!</text>',
    "warned": '<path class="warned" d="M8 -4L18 15L-2 15z"/>',
    "source": '<rect class="source" x="6" y="6" width="28" height="28" rx="3"/>',
    "stair-up": '<circle class="stair" r="8.5"/><path class="tip" d="M0 -6L5.5 3.5L-5.5 3.5z"/>',
    "stair-down": '<circle class="stair-dark" r="8.5"/><path class="tip-light" d="M0 6L5.5 -3.5L-5.5 -3.5z"/>',
    # drawn round its centre and turned to its facing: it points east
    "repeater-set": '<rect class="set" x="-13" y="-9" width="26" height="18" rx="3"/><path class="tip" d="M-7 -6L8 0L-7 6z"/>',
    "power": '<path class="tip" d="M-8 -6L6 0L-8 6z"/>',
}
_FACING_TIPS = {"north": "M15 8L20 1L25 8z", "east": "M32.5 15L39 20L32.5 25z", "south": "M15 32L20 39L25 32z", "west": "M7.5 15L1 20L7.5 25z"}


def definitions() -> str:
    signs = dict(_OTHER)
    for kind, (fill, letters) in KIND_SIGNS.items():
        signs[kind] = ('<rect class="block" width="40" height="40" fill="%s"/><text class="letters" x="20" y="25">%s</text>'
                       % (fill, letters))
    for facing, path in _FACING_TIPS.items():
        signs["facing-" + facing] = '<path class="tip" d="%s"/>' % path
    for facing in ("up", "down"):
        signs["facing-" + facing] = '<text class="small" x="20" y="37">%s</text>' % facing
    return "".join('<g id="%s">%s</g>' % item for item in signs.items())


def use(sign: str, x: float, y: float, turn: int = 0) -> str:
    if turn:
        return '<use href="#%s" transform="translate(%g %g) rotate(%d)"/>' % (sign, x, y, turn)
    return '<use href="#%s" x="%g" y="%g"/>' % (sign, x, y)


def line_style(branch: int) -> str:
    """The attributes of a branch's line; the first branch is 0."""
    dash = DASHES[(branch + branch // len(COLOURS)) % len(DASHES)]
    attributes = 'stroke="%s"' % COLOURS[branch % len(COLOURS)]
    return attributes + ' stroke-dasharray="%s"' % dash if dash else attributes


STYLE = """
body { --zoom: 1; font: 15px/1.4 "DejaVu Sans", Verdana, Arial, sans-serif; color: #111; background: #fff; margin: 1.5em auto; padding: 0 1em;
  max-width: 1180px; }
h1 { font-size: 1.5em; margin: 0 0 .2em; }
h2 { font-size: 1.1em; margin: 1.2em 0 .4em; break-after: avoid; page-break-after: avoid; }
section { break-inside: avoid; page-break-inside: avoid; }
p { margin: .3em 0; }
figure { display: inline-block; vertical-align: top; margin: .6em 1.4em .8em 0; break-inside: avoid; page-break-inside: avoid; max-width: 100%; }
figcaption { font-weight: bold; margin-bottom: .2em; }
svg { display: block; max-width: 100%; height: auto; overflow: visible; }
svg.piece { overflow: hidden; } /* the net goes on in the next piece */
table { border-collapse: collapse; margin: .4em 0; }
th, td { text-align: left; padding: .15em .8em .15em 0; border-bottom: 1px solid #bbb; }
.legend { display: flex; flex-wrap: wrap; gap: .35em 1.6em; }
.legend span { display: inline-flex; align-items: center; gap: .5em; }
.refused { border: 3px solid #a8201a; padding: .5em .9em; margin: .8em 0; font-size: 1.1em; }
.tries { border-left: 6px solid #009e73; padding: 0 .9em .2em; margin: .8em 0; font-size: 1.1em; }
.tries ul { margin: .2em 0; padding-left: 1.3em; }
.note { color: #444; }
.help { display: flex; gap: 1em; align-items: center; color: #444; }
.help svg { flex: none; }
.ground { fill: #fff; stroke: #333; stroke-width: 1.5; }
.grid { stroke: #c4c4c4; stroke-width: 1; fill: none; }
.axis { fill: #444; }
.hover { fill: #fff; fill-opacity: 0; }
.solid { fill: #b9b9b9; stroke: #777; }
.hatch { stroke: #8b8b8b; stroke-width: 1.6; fill: none; }
.block { stroke: #555; stroke-width: 1.5; }
.letters { font-size: 15px; text-anchor: middle; fill: #111; }
.small { font-size: 11px; text-anchor: middle; fill: #333; }
.tiny { font-size: 10px; text-anchor: middle; fill: #333; }
.other-full { fill: #6b4a2b; stroke: #2b1a0a; }
.other-cross { stroke: #fff; stroke-width: 3; }
.other-line { fill: #fff; fill-opacity: .7; stroke: #6b4a2b; stroke-width: 2; }
.other-dot { fill: #6b4a2b; }
.reserved { fill: none; stroke: #444; stroke-width: 2; stroke-dasharray: 3 3; }
.blocked { stroke: #9a9a9a; stroke-width: 2; }
.kept { stroke: #8a5a00; stroke-width: 2.2; fill: none; }
.kept-box { fill: #fff; stroke: #8a5a00; stroke-width: 1.5; }
.kept-letter { font-size: 20px; font-weight: bold; text-anchor: middle; fill: #111; }
.support { fill: #fbf6dc; stroke: #9b8a3a; stroke-width: 1.5; stroke-dasharray: 5 3; }
.marked { fill: none; stroke: #a8201a; stroke-width: 4; }
.flag { fill: #a8201a; }
.warned { fill: #ffd43b; stroke: #a8201a; stroke-width: 1.6; }
.signal { font-size: 11px; text-anchor: end; fill: #333; paint-order: stroke; stroke: #fff; stroke-width: 2.5px; }
.dark { fill: #111; fill-opacity: .12; stroke: #a8201a; }
.bang { font-size: 16px; font-weight: bold; fill: #fff; text-anchor: middle; }
.source { fill: #111; }
.sink { fill: #fff; stroke-width: 3; }
.end { font-size: 16px; font-weight: bold; text-anchor: middle; fill: #111; }
.end.nets { font-size: 13px; }
.end-light { font-size: 16px; font-weight: bold; text-anchor: middle; fill: #fff; }
.stair { fill: #fff; stroke: #111; stroke-width: 1.5; }
.stair-dark { fill: #111; }
.tip { fill: #111; }
.tip-light { fill: #fff; }
.set { fill: #fff; stroke: #111; stroke-width: 2; }
.halo { stroke: #fff; stroke-width: 9; fill: none; stroke-linecap: round; stroke-linejoin: round; }
.branch { stroke-width: 4.5; fill: none; stroke-linejoin: round; }
.power { stroke: #111; stroke-width: 2.5; stroke-dasharray: 3 3; }
.joint { fill: #111; stroke: #fff; stroke-width: 1.5; }
.over { pointer-events: none; }
.warnings { border: 2px solid #b8860b; padding: .2em .9em .5em; margin: .8em 0; break-inside: avoid; page-break-inside: avoid; }
.warnings ol { margin: .3em 0; padding-left: 2em; }
figcaption .note { font-weight: normal; }
.iso { display: block; margin: .6em 0; }
.iso svg { width: auto; max-height: 620px; }
.modes { float: right; }
.back { display: none; }
/* for the projector, by the page's own link: what is shown stands on a screen by itself, as large as it goes */
main:target { position: fixed; inset: 0; overflow-y: scroll; scroll-snap-type: y mandatory; background: #fff; font-size: 24px; }
main:target > * { display: none; }
main:target > .slide { display: block; box-sizing: border-box; min-height: 100vh; margin: 0; padding: 2vh 2vw; max-width: none;
  scroll-snap-align: start; }
main:target .slide svg.large { width: auto !important; height: 82vh; max-width: 96vw; max-height: none; margin: 0 auto; }
main:target figcaption, main:target h2 { font-size: 1.6em; margin: 0 0 .3em; }
main:target figcaption .note { display: none; }
main:target .back { display: block; position: fixed; right: 1em; top: .6em; font-size: 16px; }
@page { size: A4; margin: 12mm; }
@media print {
  body { margin: 0; padding: 0; font-size: 11px; orphans: 1; widows: 1; --zoom: .61; }
  figure { margin-right: 6px; }
  .screen { display: none; }
  .iso svg { max-height: 110mm; }
  main:target { position: static; overflow: visible; font-size: 11px; }
}
"""
