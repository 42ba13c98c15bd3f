"""The refusals in words: what is wrong, and what to do. The host's words, host/src/refusal.rs, are the same."""

WORDS = {
    1: ("the outline's lists don't fit together",
        "lend x and y for every point, hole lengths that add up to the hole points, and at most 4,096 points in all"),
    2: ("a loop has fewer than three points", "draw at least three, or leave the loop out"),
    3: ("a coordinate is infinite or not a number",
        "look for a division by zero or a missing reading where the outline and the point come from"),
    4: ("a coordinate is beyond 1,000 either way", "move the drawing nearer to the origin or use a larger unit"),
    5: ("the element size isn't a number above 0", "set one from 0.01 to 100"),
    6: ("the element size is below 0.01 or above 100", "set one between them, or change the unit"),
    7: ("the outline has no width or no height", "draw points that aren't all in one row or column"),
    8: ("more than 1,000 sweeps are asked for", "ask for 1,000 or fewer"),
    9: ("the field has more nodes than were lent", "set a larger size, or lend longer lists"),
    10: ("the sampled outline has more nodes or loops than the lent lists have places",
         "set a larger size, or lend longer lists"),
    11: ("the field record isn't one", "hand over the record, values and marks as the field entry answered them"),
    12: ("a block of the file has a wrong check",
         "the file is damaged, so fetch it again, or write it anew from the outline"),
    13: ("the file has a wrong length, a wrong count, or something where zeros belong",
         "write it anew from the outline, with 1 to 8 loops, at most 248 points in all, and nothing after the last block"),
    14: ("the list for the answers is too short, or those of points and targets don't fit together",
         "lend three floats for each point, x and y for every point and as many targets, and a place for each node of a loop that is read"),
    15: ("the node isn't in the mesh, or is past the lent list of thresholds", "count nodes from 0, and lend a place for each"),
    16: ("the threshold is above 500", "give it in tenths of a decibel, 0 to 500; to take one back, withdraw it"),
    17: ("no threshold stands at the node", "enter one first, or look whether it was withdrawn already"),
    18: ("the quad isn't in the mesh, or lacks a threshold", "count quads from 0, and enter the thresholds of all its nodes"),
    19: ("a weight is above 256", "give weights from 0 to 256, which is all the way across the quad"),
    20: ("the role is unknown or lacks the operation",
         "ask as the desk (1), a reader (2) or a masked reader (3), and as a role that may ask this"),
    21: ("the order leaves a quad out, names one twice or names one that isn't there",
         "name every quad of the mesh exactly once, counted from 0"),
    22: ("a quad stands before one that laid a front edge which it used up",
         "move it after every such quad, or keep the order in which the quads were placed"),
    23: ("the lent mesh isn't sound, or the list lent beside it is too short",
         "hand over lists and counts as a run or the last step left them, with every coordinate within 1,001 either way; lend two numbers for each front edge and four more for a preview, and two places a node for steps"),
    24: ("the edge isn't on the front", "name a node of the front and the node after it, in that order"),
    25: ("a quad doesn't turn left at all four corners in steps of 1/64 degree, so the bowl can't show it",
         "set a larger size, or draw the outline so that no part of it is narrower than a step"),
    26: ("the list is too short for every small quad", "lend four places for each, 14,944 in all"),
    27: ("a quad doesn't turn left by more than 20 degrees at all four corners",
         "give its nodes in the order that runs round it to the left, and no corner that is flat or folded in"),
    28: ("a side of a quad stands twice, or isn't just one of these, the sampled outline's or another quad's run back",
         "look for a quad left out, given twice, or laid over others"),
    29: ("an edge of the sampled outline is no quad's side", "look for quads left out along the outline"),
    30: ("a node isn't the sampled outline's, bit for bit", "begin the mesh with the sampled outline's nodes, in their order and unmoved"),
    31: ("a line of the points file can't be read", "write x and y there with a comma or a semicolon between, or put # before it"),
}


def in_words(number):
    """The refusal as the host displays it, 'refused (2): a loop has fewer than three points: draw at least three, ..'."""
    wrong, what_to_do = WORDS[number]
    return f"refused ({number}): {wrong}: {what_to_do}"


class Refused(Exception):
    """A refusal, and where it comes from or what it counts: '' where there is nothing to say."""

    def __init__(self, number, where=""):
        super().__init__(in_words(number))
        self.number, self.where = number, where

    def __str__(self):
        return in_words(self.number) + (f" ({self.where})" if self.where else "")
