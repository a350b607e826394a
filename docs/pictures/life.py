"""The life of a request: its states, and the calls that lead from one to another."""
from svg import INK, drawing, path, tag, text

GREY, OWNED, PACKAGE, CALL = "#f2f2f2", "#e2eefa", "#fbeadb", "#1763a6"
# state: x, y, width, colour, what it says
STATES = {
    "none": (20, 96, 130, GREY, ["no request"]),
    "waiting": (300, 96, 190, GREY, ["candidates wait", "1 to 8, each ready", "from its time on"]),
    "asked": (690, 96, 190, OWNED, ["one of them is asked", "it owns the request", "for 60 seconds"]),
    "flag": (300, 366, 170, PACKAGE, ["asked for package info", "the flag is set, an owner", "has 60 seconds"]),
    "awaiting": (570, 366, 130, PACKAGE, ["Awaiting", "its package is asked", "for, same deadline"]),
    "enqueued": (770, 366, 130, PACKAGE, ["Enqueued", "it has come, and", "no deadline ends it"]),
}
HIGH = 66
# What surrounds the states with a package place: x, y, width, height.
FRAME = (284, 340, 632, 108)
# the way of an arrow; where its words stand, and how; lines of calls and (in brackets) of what they do
ARROWS = [
    ("M150 117 L296 117", (223, 93, "middle"), ["announce", "request_parent"]),
    ("M300 145 L154 145", (225, 165, "middle"), ["forget, forget_known", "(or its last candidate leaves)"]),
    ("M490 117 L686 117", (588, 109, "middle"), ["plan, then claim"]),
    ("M690 145 L494 145", (588, 181, "middle"), ["failed, disconnected, transaction_not_found,", "a plan at the deadline", "(the owner leaves, the others are ready at once)"]),
    ("M785 96 C785 56 560 50 420 50 C260 50 85 56 85 92", (436, 24, "middle"), ["forget_known, forget", "(the transaction has come)"]),
    ("M350 162 L350 362", (340, 234, "end"), ["solicit_package_info", "(a connection is asked", "(which transactions go with it)"]),
    ("M470 399 L566 399", (519, 390, "middle"), ["claim_package"]),
    ("M700 399 L766 399", (735, 358, "middle"), ["begin_package_resolution"]),
    ("M520 340 C520 270 452 256 440 166", (540, 242, "start"),
     ["failed_with_parents, a plan at the deadline,", "failed_package_claims of Awaiting, release_package of Enqueued", "(the owner leaves, and is asked for the parents one by one)",
      "disconnected", "(the candidates left are asked for them)", "failed, teardown_package_claims", "(nobody is)"]),
]


def box(x, y, width, colour, said):
    shapes = [tag("rect", x=x, y=y, width=width, height=HIGH, rx=10, fill=colour, stroke=INK, stroke_width=1.2)]
    first = y + (HIGH - 16 * (len(said) - 1)) / 2 + 4
    for i, words in enumerate(said):
        shapes.append(text(x + width / 2, first + 16 * i, words, 13 if i == 0 else 12, "middle", weight="bold" if i == 0 else "normal"))
    return shapes


def arrow(way, at, said):
    x, y, anchor = at
    shapes = [path(way, marker_end="url(#head)")]
    for i, words in enumerate(said):
        shapes.append(text(x, y + 14 * i, words.strip("()"), 12, anchor, colour=INK if words.startswith("(") else CALL))
    return shapes


def drawn(_read):
    head = tag("path", d="M0 0 L9 4.5 L0 9 Z", fill=INK)
    shapes = [tag("defs", tag("marker", head, id="head", markerWidth=9, markerHeight=9, refX=8, refY=4.5, orient="auto", markerUnits="userSpaceOnUse"))]
    x, y, width, height = FRAME
    shapes.append(path(f"M{x} {y} L{x + width} {y} L{x + width} {y + height} L{x} {y + height} L{x} {y}", "#b9793f", 1, stroke_dasharray="4 3"))
    for state in STATES.values():
        shapes += box(*state)
    for one in ARROWS:
        shapes += arrow(*one)
    return drawing(940, 462, "The life of a request", shapes)
