"""The folders of a graph as a tree, and which of them a picture shows."""
import re


# Folders below each other that stand apart; deeper ones count as one.
DEEPEST = 100


class Node:
    """A folder: its entries, and the folders below."""

    def __init__(self, path):
        self.path = path
        self.entries = []
        self.below = {}
        self.count = 0

    def all(self):
        """The entries of the folder and of those below."""
        found, waiting = [], [self]
        while waiting:
            node = waiting.pop()
            found += node.entries
            waiting += node.below.values()
        return found


def parts_of(folder):
    """The paths of the folders on the way to a folder, each with a / at its end, but for names that are no paths."""
    found = re.match(r"([A-Za-z][A-Za-z0-9+.-]*://[^/]*/|/)(.*)", folder)
    if not found:
        return [folder]
    paths = [found[1]]
    *names, rest = found[2].split("/", DEEPEST)
    for name in [*names, rest.strip("/")]:
        if name:
            paths.append(f"{paths[-1]}{name}/")
    return paths


def tree_of(graph):
    """The roots of the tree, by their paths."""
    roots = {}
    for entry in graph.entries.values():
        level, node = roots, None
        for path in parts_of(entry.folder):
            node = level.get(path)
            if node is None:
                node = level[path] = Node(path)
            node.count += 1
            level = node.below
        node.entries.append(entry)
    return roots


def shown(graph, most):
    """What a picture shows: (path, entries, whether they stand for one), the folders with the most entries opened until
    there are about `most`."""
    boxes = [(node, True) for node in tree_of(graph).values()]  # with all that is below
    while len(boxes) < most:
        opening = [box for box in boxes if box[1] and box[0].below]
        if not opening:
            break
        largest = max(opening, key=lambda box: (box[0].count, box[0].path))
        boxes.remove(largest)
        node = largest[0]
        boxes += [(below, True) for below in node.below.values()]
        if node.entries:
            boxes.append((node, False))
    boxes.sort(key=lambda box: box[0].path)
    return [(node.path, node.all() if whole else node.entries, bool(whole and node.below)) for node, whole in boxes]
