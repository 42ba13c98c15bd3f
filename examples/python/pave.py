"""Paves the outline of a visual field, says what became of it, and draws it where matplotlib is there.

    python3 pave.py FIELD.csv SIZE [PICTURE.png]

A point is a line of FIELD.csv, x and y in degrees with a comma between. A blank line ends a loop: the first is the outline, the others are blind spots.
"""

import sys

import sitjorbe

try:
    from matplotlib import pyplot
except ImportError:
    pyplot = None


def read(path):
    """The loops of a file of points."""
    loops = [[]]
    with open(path) as file:
        for line in file:
            if not line.strip():
                loops.append([])
            elif not line.startswith("#"):
                loops[-1].append(tuple(map(float, line.split(","))))
    outer, *holes = [loop for loop in loops if loop]
    return sitjorbe.Outline(outer, holes)


def draw(mesh, path):
    """Quads, and in red the rings round what is left open."""
    figure, axes = pyplot.subplots(figsize=(8, 8))
    for ring, colour in [(quad, "tab:blue") for quad in mesh.quads] + [(loop, "tab:red") for loop in mesh.loops]:
        corners = [mesh.nodes[node] for node in [*ring, ring[0]]]
        axes.plot([x for x, _ in corners], [y for _, y in corners], color=colour, linewidth=0.6)
    axes.set_aspect("equal")
    axes.set_xlabel("degrees")
    figure.savefig(path)


def main(words):
    mesh = read(words[1]).pave(size=float(words[2]))
    print(f"{len(mesh.nodes)} nodes, {len(mesh.quads)} quads, {'whole' if mesh.whole else f'{len(mesh.loops)} rings left open'}, {mesh.end}")
    if len(words) > 3 and pyplot:
        draw(mesh, words[3])
    elif len(words) > 3:
        print("there is no matplotlib here: nothing is drawn")


if __name__ == "__main__":
    try:
        main(sys.argv)
    except sitjorbe.Refused as refused:
        sys.exit(f"pave.py: {refused}")
