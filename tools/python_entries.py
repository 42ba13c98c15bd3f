"""The entries declared for Python: the text of python/sitjorbe/_entries.py."""

import commands
import refusals
from declarations import ENUMS, host_enum, host_limits, told, words_of
import names

C_TYPES = {"bool": "c_bool", "usize": "c_size_t", "f64": "c_double", **{f"{sign}{bits}": f"c_{'u' if sign == 'u' else ''}int{bits}" for sign in "ui" for bits in (8, 16, 32, 64)}}

TEXT = '''\
"""The entries of the library as ctypes calls them. Written by tools/bindings from the Rattle source; the package calls them, and gives lists and words."""

from ctypes import POINTER, Structure, c_bool, c_double, c_int32, c_size_t, c_uint8, c_uint16, c_uint32, c_uint64  # noqa: F401

VERSION = "{version}"
ABI = {number}

# ---- numbers

{limits}

{enums}

REFUSALS = {{
{words}
}}


# ---- answers


{structs}


# ---- entries

ENTRIES = {{
{entries}
}}


def declare(library):
    """Tells ctypes what each entry takes and answers; a parameter NAME_len is the length of the list NAME."""
    for name, (answer, takes) in ENTRIES.items():
        entry = getattr(library, name)
        entry.restype, entry.argtypes = answer, [kind for _, kind in takes]
    return library
'''


def kind(name):
    return C_TYPES.get(name, name)


def parameter(typed):
    return f"POINTER({kind(typed.kind)})" if typed.pointer else kind(typed.kind)


def enum(name):
    return "\n".join([f"{name.upper()}S = {{", *(f"    {number}: \"{case.lower()}\"," for case, number, _ in host_enum(name)), "}"])


def struct(reading, of):
    lines = [f"class {of.name}(Structure):", f'    """{told(reading, of)}"""', "", "    _fields_ = ["]
    lines += [f'        ("{field.name}", {kind(field.kind)}),  # {words_of(names.FIELDS, of.name, field.name)}' for field in of.fields]
    return "\n".join([*lines, "    ]"])


def text(reading):
    """The text of python/sitjorbe/_entries.py."""
    entries = []
    for function in reading.functions:
        lines = [f'        ("{typed.name}", {parameter(typed)}),' for typed in function.parameters]
        entries.append("\n".join([f'    "{function.name}": ({kind(function.answer) if function.answer else None}, [', *lines, "    ]),"]))
    return TEXT.format(
        version=commands.version(), number=reading.number(),
        limits="\n".join(f"{name} = {number}  # {about}" for name, number, about in host_limits()),
        enums="\n".join(enum(name) for name in ENUMS if name != "Refusal"),
        words="\n".join(f"    {number}: \"{refusals.in_words(number)}\"," for number in refusals.WORDS),
        structs="\n\n\n".join(struct(reading, each) for each in reading.structs), entries="\n".join(entries))
