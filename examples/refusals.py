"""A refusal in words, for the Python programs here: the line that `recheck` prints and the sentence of docs/FOR-READERS.md."""

# # stands for a value
SENTENCES = {
    1: "the kind is not 1 or 2, or a prism has other than two corners, or a list's length is no multiple of 3",
    2: "too many vertices (20,000), faces (32,768) or stations (65,536)",
    3: "a number such as a coordinate, the magnetisation or the ambient field is not finite, or over 10^9; or a coordinate to be written as OBJ is not whole",
    4: "the face # names a vertex that is not there",
    5: "the edge from # to # occurs twice",
    6: "the edge from # to # has no reverse",
    7: "the face # has no area",
    8: "the volume is not above zero",
    9: "a side of the prism is below 10^-6, or min and max are exchanged",
    10: "the field at station # cannot be computed within the limits (32 bisections of a prism; 64 edges through a station)",
    11: "the field at station # cannot be computed within the limits (32 bisections of a prism; 64 edges through a station)",
    12: "a lent list is too short",
    13: "the computed row at station # is infinite or no number, as at an edge of the body, or where the ambient field and the body's are both zero",
    14: "outside the call's domain",
    15: "Carlson's loop has not ended after 64 rounds",
    16: "the length, or the pointer at the end, does not fit the counts",
    17: "the order list is not that of the faces: it is wrong, or an edge occurs twice",
    18: "a mate is not the reverse edge: it is wrong, or the mesh is open",
    19: "the stored volume is not the mesh's",
    20: "the row of station # is not what the formulas give",
    21: "a line of the text is not `v` and three numbers, `f` and three indices from 1, a comment or blank",
    22: "a number or an index of the text has more than 15 digits",
}
EDGES = (5, 6)  # their values are an edge, which stands in the sentence alone


def refusal_text(number, values):
    sentence = SENTENCES.get(number, "a refusal of a newer version")
    place = 0 if number in EDGES else values[0]
    return "refused %d %d: %s" % (number, place, sentence.replace("#", "{}").format(*values))
