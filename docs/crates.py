#!/usr/bin/env python3
"""Draws the crates of crates.txt, layer by layer, as docs/crates.svg:

    docs/crates.py

Each group of GROUPS is a panel. An arrow goes from a group to one that its crates use, where no way over other groups
tells so already. Crates of tests alone, whose names end in _tests, are left out. The script draws nothing, and says why,
where another crate of crates.txt is in no group, or where a crate uses one of a higher layer.
"""

import pathlib
import sys
from dataclasses import dataclass


@dataclass
class Group:
    layer: int  # from the top
    middle: int  # of the panel, from the left
    title: str
    rows: list
    width: int = 0  # at least

    def crates(self):
        return [crate for row in self.rows for crate in row]


GROUPS = [
    Group(0, 440, "programs", [["pinpad_cli", "worked_runs", "fault_runs"]]),
    Group(0, 890, "the program on threads", [["pinpad_live"]]),
    Group(1, 440, "whole runs of a script", [["pad_replay"]]),
    Group(1, 890, "whole runs of lanes", [["pad_live_core"]]),
    Group(2, 968, "one pad for threads", [["pad_desk"]]),
    Group(3, 330, "the pad: the code of a step", [["pad_machine"]]),
    Group(3, 720, "text", [["lane_scripts", "transcript"], ["script_lang", "command_words"]]),
    Group(4, 330, "the machine: its definition and laws", [["flat_machine"]], width=600),
    Group(5, 131, "what a command comes to", [["key_import", "crypt_commands"], ["local_check", "pin_blocks"]]),
    Group(5, 385, "sessions and requests", [["request_queue"], ["device_lock", "session_book"]]),
    Group(5, 580, "what is entered", [["entry_core"], ["secure_entry"], ["pin_buffer"]], width=130),
    Group(5, 766, "keys on a disk", [["key_table", "key_record"], ["nv_store", "file_disk"], ["disk_core"]]),
    Group(6, 131, "ciphers", [["check_values", "cbc_mac"], ["des_core"]]),
    Group(7, 390, "commands, steps and answers", [["pad_steps", "key_source", "key_attributes"]], width=600),
    Group(7, 968, "the turn of threads", [["turnstile"]]),
    Group(8, 440, "small values, and spelled words", [["pad_words", "spelled_words"]], width=600),
]

WIDTH = 1060
BOX, BETWEEN, EDGE, TITLE, BETWEEN_LAYERS = 25, 8, 12, 23, 34
LETTER, TITLE_LETTER = 7.3, 6.6
PANEL, LINE, PAPER, INK, TITLE_INK, ARROW = "#e6eefa", "#5b7fb0", "#ffffff", "#12263f", "#2f5a93", "#7f8ea3"


def read_uses(path):
    """The crates of this repository that each of them uses."""
    named = {}
    for line in path.read_text().splitlines():
        head, found, tail = line.partition("#")[0].partition(":")
        if found and not head.split()[0].endswith("_tests"):
            named[head.split()[0]] = tail.split()
    return {crate: [it for it in uses if it in named] for crate, uses in named.items()}


def find_groups(uses):
    """The group of each crate."""
    group_of = {crate: group for group in GROUPS for crate in group.crates()}
    if set(uses) != set(group_of):
        sys.exit(f"crates.py: in crates.txt or in a group, and not in both: {sorted(set(uses) ^ set(group_of))}")
    for crate, used in uses.items():
        for it in used:
            if group_of[it].layer < group_of[crate].layer:
                sys.exit(f"crates.py: {crate} uses {it}, which stands in a higher layer")
    return group_of


def find_arrows(uses, group_of):
    """The pairs of groups, by their titles, of which no way over other groups tells already."""
    below = {group.title: set() for group in GROUPS}
    for crate, used in uses.items():
        below[group_of[crate].title] |= {group_of[it].title for it in used}
    for title, used in below.items():
        used.discard(title)

    def reaches(start, goal):
        return any(it == goal or reaches(it, goal) for it in below[start])

    return [
        (title, goal)
        for title, used in below.items()
        for goal in sorted(used)
        if not any(reaches(it, goal) for it in used if it != goal)
    ]


def width_of(crate):
    return len(crate) * LETTER + 16


def width_of_row(row):
    return sum(map(width_of, row)) + BETWEEN * (len(row) - 1)


def place_panels():
    """The left, the top, the width and the height of each panel, by its title, and the height of the picture."""
    places, top = {}, EDGE
    for layer in range(GROUPS[-1].layer + 1):
        groups = [group for group in GROUPS if group.layer == layer]
        rows = max(len(group.rows) for group in groups)
        height = TITLE + rows * (BOX + BETWEEN) - BETWEEN + EDGE
        for group in groups:
            inside = max(*map(width_of_row, group.rows), len(group.title) * TITLE_LETTER, group.width - 2 * EDGE)
            width = inside + 2 * EDGE
            places[group.title] = (group.middle - width / 2, top, width, height)
        top += height + BETWEEN_LAYERS
    return places, top - BETWEEN_LAYERS + EDGE


def draw_arrow(start, goal):
    """From the lower edge of a panel to the upper edge of another, upright where one stands above the other."""
    left, top, width, height = start
    goal_left, goal_top, goal_width, _ = goal
    low, high = max(left, goal_left), min(left + width, goal_left + goal_width)
    if high - low > 30:
        x = goal_x = (low + high) / 2
    elif goal_left > left:
        x, goal_x = left + width - 20, goal_left + 20
    else:
        x, goal_x = left + 20, goal_left + goal_width - 20
    y, goal_y = top + height, goal_top - 5
    bend = min(goal_y - y, 40) * 0.7
    way = f"M{x:.1f} {y:.1f} C{x:.1f} {y + bend:.1f} {goal_x:.1f} {goal_y - bend:.1f} {goal_x:.1f} {goal_y:.1f}"
    return f'<path d="{way}" fill="none" stroke="{ARROW}" stroke-width="2" marker-end="url(#head)"/>'


def draw_box(left, top, width, height, fill, round_by):
    return (
        f'<rect x="{left:.1f}" y="{top:.1f}" width="{width:.1f}" height="{height:.1f}" rx="{round_by}"'
        f' fill="{fill}" stroke="{LINE}"/>'
    )


def draw_panel(group, place):
    left, top, width, height = place
    middle = left + width / 2
    yield draw_box(left, top, width, height, PANEL, 7)
    yield f'<text x="{middle:.1f}" y="{top + 16:.1f}" fill="{TITLE_INK}">{group.title}</text>'
    free = height - TITLE - EDGE + BETWEEN - len(group.rows) * (BOX + BETWEEN)
    at = top + TITLE + free / 2
    for row in group.rows:
        left = middle - width_of_row(row) / 2
        for crate in row:
            yield draw_box(left, at, width_of(crate), BOX, PAPER, 4)
            x = left + width_of(crate) / 2
            yield f'<text class="crate" x="{x:.1f}" y="{at + 17:.1f}" fill="{INK}">{crate}</text>'
            left += width_of(crate) + BETWEEN
        at += BOX + BETWEEN


def main():
    here = pathlib.Path(__file__).resolve().parent
    uses = read_uses(here.parent / "crates.txt")
    arrows = find_arrows(uses, find_groups(uses))
    places, height = place_panels()
    lines = [
        f'<svg xmlns="http://www.w3.org/2000/svg" viewBox="0 0 {WIDTH} {height}" width="{WIDTH}" height="{height}"'
        ' font-family="Helvetica, Arial, sans-serif" font-size="12" text-anchor="middle" role="img">',
        "<title>The crates, layer by layer: each group stands above those that it uses</title>",
        "<style>.crate { font-family: Menlo, Consolas, 'DejaVu Sans Mono', monospace; }</style>",
        '<defs><marker id="head" viewBox="0 0 8 8" refX="4" refY="4" markerWidth="5" markerHeight="5" orient="auto">'
        f'<path d="M0 0 L8 4 L0 8 Z" fill="{ARROW}"/></marker></defs>',
        *(draw_arrow(places[above], places[below]) for above, below in arrows),
        *(line for group in GROUPS for line in draw_panel(group, places[group.title])),
        "</svg>",
    ]
    (here / "crates.svg").write_text("\n".join(lines) + "\n")


main()
