"""Of the C header what stands beside the entries: structs of parameters that belong together, calls that take them, and what says how long lists want to be.

All of it is made from the reading of the entries: a parameter that a struct has is taken from there, whatever the entry, and the others are handed on.
"""

from typing import NamedTuple

import names
from declarations import c_answer, c_comment, c_struct, c_type, c_wrapped, words_of
from entries import Typed, Wrong


class Group(NamedTuple):
    """Parameters that belong together, as a struct's members."""

    struct: str
    argument: str  # what a call's parameter is called
    words: str
    members: dict  # a parameter's name to the member's, where it has another


GROUPS = [
    Group("outline", "outline", "An outline as it is lent: the outer loop, and any number of holes in it.", dict(outer="", holes="", hole_lengths="")),
    Group("settings", "settings", "What an exam sets for a run. 400 sweeps and 600 passes are usual.", dict(size="", sweeps="", passes="")),
    Group("record", "record", "A field record: where the field's grid stands and how many nodes it has. Answers have one.", dict(xmin="", ymin="", h="", nx="", ny="")),
    Group("field_lists", "field", "The lists of a field. Directions, steps and previews want just as many places as it has nodes, which is what "
          "sitjorbe_list_lengths_for answers.", dict(values="", marks="")),
    Group("mesh_lists", "mesh", "The lists of a mesh. A run writes them all, a step all but the last two.",
          dict(xs="", ys="", next="", prev="", origins="", quads="", edges="", loops="", loop_lengths="")),
    Group("mesh_counts", "counts", "How much of a mesh's lists is in use. Answers of runs and steps have them.",
          dict(node_count="nodes", nodes="nodes", quad_count="quads", edge_count="edges", front_count="front")),
    Group("scratch", "scratch", "Lists for a run's own use. Of all but the snapshot any length will do.",
          dict(snapshot="", node_pool="", edge_pool="", blocks="", tried="")),
    Group("asked", "asked", "What is asked of an exam.", dict(role="", operation="", item="", value="", u="", v="")),
    Group("results", "results", "The results of an exam. A desk's call takes what the last one left, and begins with SITJORBE_BEGIN.", dict(thresholds="", count="", sum="")),
]
BY_PARAMETER = {name: (group, member or name) for group in GROUPS for name, member in group.members.items()}

# How long each list of a run wants to be, of the field's nodes, the places for nodes, quads and edges, and the outline.
LENGTHS = {
    "values": "2 * field_nodes", "marks": "field_nodes", "xs": "nodes", "ys": "nodes", "next": "nodes", "prev": "nodes", "origins": "nodes", "quads": "4 * quads",
    "edges": "2 * edges", "loops": "nodes", "loop_lengths": "outline->hole_lengths_len + 1", "snapshot": "nodes", "node_pool": "4 * nodes", "edge_pool": "16 * edges",
    "blocks": "outline->outer_len + outline->holes_len", "tried": "3 * nodes",
}
LISTS = ("field_lists", "mesh_lists", "scratch")


def parameters(reading):
    """Every parameter by its name: a pointer that is written in some entry is written."""
    found = {}
    for function in reading.functions:
        for typed in function.parameters:
            if typed.name not in found or typed.pointer == "mut":
                found[typed.name] = typed
    return found


def group(struct):
    return next(group for group in GROUPS if group.struct == struct)


def member_kinds(reading, of):
    """A struct's members: name, type, words. A number that is lent by pointer stands in the struct itself."""
    all_of, seen = parameters(reading), {}
    for parameter, (owner, member) in BY_PARAMETER.items():
        if owner is of and member not in seen:
            if parameter not in all_of:
                raise Wrong(f"tools/calls.py: no entry has a parameter {parameter}")
            typed, is_list = all_of[parameter], f"{parameter}_len" in all_of
            seen[member] = (typed._replace(name=member, pointer=typed.pointer if is_list else ""), words_of(names.PARAMETERS, of.struct, parameter), is_list)
    return seen.values()


# ---- structs


def declared(reading, of):
    lines = [c_comment(of.words), f"typedef struct sitjorbe_{of.struct} {{"]
    for typed, about, is_list in member_kinds(reading, of):
        lines.append(f"    {c_type(typed)}{typed.name}; /**< {about} */")
        if is_list:
            lines.append(f"    size_t {typed.name}_len; /**< its length */")
    return "\n".join([*lines, f"}} sitjorbe_{of.struct};"])


# ---- calls


def handed_on(reading, function):
    """A call's own parameters, structs first, and the arguments of the entry's."""
    structs, rest, arguments, every = set(), [], [], parameters(reading)
    for typed in function.parameters:
        base = typed.name.removesuffix("_len")
        of, member = BY_PARAMETER.get(base, (None, None))
        if of is None:
            rest.append(f"{c_type(typed)}{typed.name}")
            arguments.append(typed.name)
        else:
            structs.add(of.struct)
            by_pointer = typed.pointer and f"{base}_len" not in every
            arguments.append(f"{'&' if by_pointer else ''}{of.argument}->{member}{typed.name[len(base):]}")
    return [struct_parameter(function, of) for of in GROUPS if of.struct in structs] + rest, arguments


def struct_parameter(function, of):
    """A struct as a call takes it: a number in it may be written, the lists always as the entry says."""
    lists = {typed.name.removesuffix("_len") for typed in function.parameters if typed.name.endswith("_len")}
    written = any(typed.pointer == "mut" and typed.name in of.members and typed.name not in lists for typed in function.parameters)
    return f"{'' if written else 'const '}sitjorbe_{of.struct} *{of.argument}"


def grouped(function):
    """Whether some parameter of an entry stands in a struct."""
    return any(typed.name in BY_PARAMETER for typed in function.parameters)


def call(reading, function):
    own, arguments = handed_on(reading, function)
    head = c_wrapped(f"SITJORBE_MUST_USE static inline {c_answer(function)} {function.name}_with(", own, ") {")
    return "\n".join([c_comment(f"Calls {function.name}."), head, c_wrapped(f"    return {function.name}(", arguments, ");", "        "), "}"])


# ---- what answers have


def taken(reading, struct, of, fields):
    """For each entry that answers these fields a function that takes them out."""
    found = []
    for function in reading.functions:
        answer = reading.struct(function.answer)
        if answer and set(fields) <= {field.name for field in answer.fields}:
            name = f"{function.name}_{of}"
            lines = [f"static inline sitjorbe_{struct} {name}({c_struct(answer.name)} answer) {{", f"    sitjorbe_{struct} {of};"]
            lines += [f"    {of}.{field} = answer.{field};" for field in fields]
            found.append("\n".join([c_comment(f"The {of} in an answer of {function.name}."), *lines, f"    return {of};", "}"]))
    return found


# ---- lengths


LENGTHS_TEXT = """\
/** How long each list of a run wants to be; the members are called as the lists. */
typedef struct sitjorbe_list_lengths {{
    uint32_t refusal; /**< what refuses the outline or the size, 0 where nothing is refused; the lengths are 0 otherwise */
    size_t {members};
}} sitjorbe_list_lengths;

/**
 * How long the lists of a run want to be: as long as it can't do without, and with places for `growth` times a guess of how many quads there will be, and for the
 * nodes and edges that they add. With 1 a run seldom ends SITJORBE_END_FULL; where it does, ask for twice as much and call again. A growth of 250,000 or
 * more is always enough.
 */
static inline sitjorbe_list_lengths sitjorbe_list_lengths_for(
    const sitjorbe_outline *outline, const sitjorbe_settings *settings, size_t growth) {{
    const sitjorbe_places_answer least = sitjorbe_places_with(outline, settings);
    const size_t guess = least.sampled_nodes + least.field_nodes / 4;
    const size_t times = growth < SITJORBE_MOST_QUADS ? growth : SITJORBE_MOST_QUADS;
    const size_t quads = times * guess < SITJORBE_MOST_QUADS ? times * guess : SITJORBE_MOST_QUADS;
    const size_t field_nodes = least.field_nodes, nodes = least.sampled_nodes + 2 * quads;
    const size_t edges = least.sampled_nodes + 3 * quads;
    const int refused = least.refusal != 0;
    sitjorbe_list_lengths lengths;
    lengths.refusal = least.refusal;
{lengths}
    return lengths;
}}

/** How many bytes all these lists take. */
static inline size_t sitjorbe_list_bytes(const sitjorbe_list_lengths *lengths) {{
    return {bytes};
}}

/**
 * Cuts memory into lists of these lengths: sitjorbe_list_bytes of it, aligned to 8 as malloc's is. What it holds doesn't matter.
 */
static inline void sitjorbe_cut_lists(void *memory, const sitjorbe_list_lengths *lengths,
    sitjorbe_field_lists *field, sitjorbe_mesh_lists *mesh, sitjorbe_scratch *scratch) {{
    char *at = (char *)memory;
{cuts}
    (void)at;
}}"""


def lengths(reading):
    """The struct of lengths, and what answers and uses it."""
    lists = [(of, typed) for of in map(group, LISTS) for typed, _, _ in member_kinds(reading, of)]
    if [typed.name for _, typed in lists] and {typed.name for _, typed in lists} != set(LENGTHS):
        raise Wrong("tools/calls.py: LENGTHS names other lists than the structs have")
    largest_first = sorted(lists, key=lambda each: -reading.layout(each[1].kind)[0])
    kinds = {typed.name: c_type(Typed(typed.name, typed.kind)).strip() for _, typed in lists}
    cuts = []
    for of, typed in largest_first:
        cuts += [f"    {of.argument}->{typed.name} = ({kinds[typed.name]} *)(void *)at;", f"    {of.argument}->{typed.name}_len = lengths->{typed.name};",
                 f"    at += lengths->{typed.name} * sizeof({kinds[typed.name]});"]
    sums = [f"lengths->{typed.name} * sizeof({kinds[typed.name]})" for _, typed in largest_first]
    return LENGTHS_TEXT.format(
        members=", ".join(typed.name for _, typed in lists),
        lengths="\n".join(f"    lengths.{typed.name} = refused ? 0 : {LENGTHS[typed.name]};" for _, typed in lists),
        bytes="\n        + ".join(sums), cuts="\n".join(cuts))


def text(reading):
    """All that stands beside the entries."""
    structs = [declared(reading, of) for of in GROUPS]
    calls = [call(reading, function) for function in reading.functions if grouped(function)]
    answers = taken(reading, "mesh_counts", "counts", ("nodes", "quads", "edges", "front")) + taken(reading, "record", "record", group("record").members)
    return "\n\n".join([*structs, *calls, *answers, lengths(reading)])
