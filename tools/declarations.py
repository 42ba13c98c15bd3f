"""The entries declared for hosts: the text of include/sitjorbe.h and of host/src/ffi.rs."""

import re
import textwrap

import commands
import names
import refusals
from crates import ROOT
from entries import Wrong

WIDTH = 120
HOST = [path for path in sorted((ROOT / "host/src").glob("*.rs")) if path.name != "ffi.rs"]  # what is written by hand
ENUMS = {"Refusal": "REFUSED", "End": "END", "Outcome": "OUTCOME"}  # of the Rust crate, and the word before each name in C

C_TYPES = {"bool": "bool", "usize": "size_t", "f64": "double",
           **{f"{sign}{bits}": f"{'u' if sign == 'u' else ''}int{bits}_t" for sign in "ui" for bits in (8, 16, 32, 64)}}

# Of C and C++ those that a parameter or a field could be called.
KEYWORDS = set("auto bool break case catch char class const continue default delete do double else enum explicit export extern float for friend goto if "
               "inline int long mutable namespace new operator or and not xor private protected public register return short signed sizeof static "
               "struct switch template this throw try typedef typename union unsigned using virtual void volatile while".split())


def words_of(kind, owner, name):
    """The words of a parameter or a field."""
    if name in KEYWORDS:
        raise Wrong(f"{owner}: {name} is a word of C or C++")
    words = kind.get(f"{owner}.{name}") or kind.get(name)
    if not words:
        which = "PARAMETERS" if kind is names.PARAMETERS else "FIELDS"
        raise Wrong(f"{owner}: {which} in tools/names.py has no words for {name}")
    return words


def lent(function):
    """The parameters that have words: a list's length has none of its own."""
    lists = {f"{typed.name}_len" for typed in function.parameters if typed.pointer}
    return [typed for typed in function.parameters if typed.name not in lists]


def answered_by(reading, struct):
    *others, last = [f"`{function.name}`" for function in reading.functions if function.answer == struct.name]
    return f"{', '.join(others)} and {last}" if others else last


def told(reading, struct):
    """A struct's words: whose answer it is, then the comment above it."""
    return f"The answer of {answered_by(reading, struct)}. {struct.words}".strip()


# ---- what the Rust crate has under names of its own


def host_enum(name):
    """The cases of an enum of the Rust crate: name, number, words."""
    text = next(text for text in (path.read_text() for path in HOST) if f"pub enum {name} {{" in text)
    body = text[text.index(f"pub enum {name} {{"):]
    body = body[:body.index("\n}")]
    cases = re.findall(r"((?:^ +///.*\n)+)^ +(\w+) = (\d+),$", body, re.MULTILINE)
    return [(case, int(number), " ".join(re.findall(r"/// (.*)", comment))) for comment, case, number in cases]


def host_limits():
    """The numbers that are public constants of the Rust crate: name, value, words."""
    found, highest = [], {f"u{bits}::MAX": 2 ** bits - 1 for bits in (8, 16, 32)}
    for path in HOST:
        for comment, name, value in re.findall(r"((?:^ *///.*\n)+)^ *pub const (\w+): (?:[ui]\w+) = ([\w:]+);$", path.read_text(), re.MULTILINE):
            number = highest[value] if value in highest else int(value.replace("_", ""))
            found.append((name, number, re.sub(r"\[`(\w+)`\]", r"SITJORBE_\1", " ".join(re.findall(r"/// (.*)", comment)))))
    return found


# ---- C


def snake(name):
    return re.sub(r"(?<!^)(?=[A-Z])", "_", name).lower()


def c_struct(name):
    return f"sitjorbe_{snake(name)}"


def c_comment(text, indent=""):
    """A comment, in one line where it fits."""
    if len(indent) + len(text) + 7 <= WIDTH:
        return f"{indent}/** {text} */"
    lines = textwrap.wrap(text, WIDTH - len(indent) - 3, break_long_words=False, break_on_hyphens=False)
    return "\n".join([f"{indent}/**", *(f"{indent} * {line}" for line in lines), f"{indent} */"])


def c_type(typed):
    kind = C_TYPES.get(typed.kind) or c_struct(typed.kind)
    return {"": f"{kind} ", "const": f"const {kind} *", "mut": f"{kind} *"}[typed.pointer]


def c_answer(function):
    return (C_TYPES.get(function.answer) or c_struct(function.answer)) if function.answer else "void"


def c_function(function):
    for typed in lent(function):
        words_of(names.PARAMETERS, function.name, typed.name)
    head = f"SITJORBE_MUST_USE {c_answer(function)} {function.name}("
    parameters = [f"{c_type(typed)}{typed.name}" for typed in function.parameters] or ["void"]
    if len(f"{head}{', '.join(parameters)});") > WIDTH:
        pairs, k = [], 0
        while k < len(parameters):
            step = 2 if function.parameters[k].pointer and k + 1 < len(parameters) and parameters[k + 1].endswith("_len") else 1
            pairs.append(", ".join(parameters[k:k + step]))
            k += step
        parameters = pairs
    return f"{c_comment(function.words)}\n{c_listed(head, parameters, ');')}"


def c_listed(head, parts, end):
    """Parts between commas, each in a line of its own where they don't fit in one."""
    whole = f"{head}{', '.join(parts)}{end}"
    return whole if len(whole) <= WIDTH else head + "\n    " + ",\n    ".join(parts) + end


def c_wrapped(head, parts, end, indent="    "):
    """Parts between commas, as many in a line as fit."""
    whole = f"{head}{', '.join(parts)}{end}"
    if len(whole) <= WIDTH:
        return whole
    kept = [part.replace(" ", "\0") for part in parts]  # no part goes over the end of a line
    lines = textwrap.wrap(f"{', '.join(kept)}{end}", WIDTH - len(indent), break_long_words=False, break_on_hyphens=False)
    return "\n".join([head, *(indent + line.replace("\0", " ") for line in lines)])


def c_declared(reading, struct):
    name = c_struct(struct.name)
    lines = [c_comment(told(reading, struct)), f"typedef struct {name} {{"]
    for field in struct.fields:
        lines.append(f"    {c_type(field)}{field.name}; /**< {words_of(names.FIELDS, struct.name, field.name)} */")
    lines.append(f"}} {name};")
    *offsets, size = reading.offsets(struct)
    for field, offset in zip(struct.fields, offsets):
        lines.append(f"SITJORBE_ASSERT(offsetof({name}, {field.name}) == {offset});")
    return "\n".join([*lines, f"SITJORBE_ASSERT(sizeof({name}) == {size});"])


def c_enum(name, word):
    lines = [f"enum sitjorbe_{snake(name)} {{"]
    for case, number, about in host_enum(name):
        lines += [c_comment(about, "    "), f"    SITJORBE_{word}_{snake(case).upper()} = {number},"]
    return "\n".join([*lines[:-1], lines[-1].rstrip(","), "};"])


def c_limit(name, number, about):
    return f"{c_comment(about)}\n#define SITJORBE_{name} {number}{'u' if number > 65_535 else ''}"


def c_glossary(reading):
    """Every parameter once, in the order in which they come."""
    found = {typed.name: words_of(names.PARAMETERS, function.name, typed.name) for function in reading.functions for typed in lent(function)}
    width = max(map(len, found))
    return "\n".join(f" * {name.ljust(width)}  {about}" for name, about in found.items())


def c_refusal_words():
    lines = []
    for number in refusals.WORDS:
        words = textwrap.wrap(refusals.in_words(number), WIDTH - 18, drop_whitespace=False)
        lines += [f"    case {number}:", "        return " + "\n               ".join(f'"{line}"' for line in words) + ";"]
    return "\n".join(lines)


HEADER = """\
/*
 * Sitjorbe: verified geometry for a paved visual field, from outline to quads. Version {version}, shape {number}.
 *
 * Written by tools/bindings from the Rattle source. docs/INTEGRATION.md says how to call; "SCOPE" in a comment is what
 * docs/SCOPE.md and docs/FORMATS.md set out. For x86-64 Linux, C11 or C++17, and later.
 *
 * A list is lent as a pointer and a length, which counts elements; with a length of 0 the pointer may be NULL. A pointer without a
 * length is that of one number. Pointers are aligned as their types ask. What is lent for writing (no const) overlaps nothing else
 * that is lent to the same call.
 *
 * That is all an entry asks: whatever the lists hold and the numbers are, it is proved to end and to read and write nothing but
 * what was lent. What can't be used is refused: the answer's first field is the refusal's number, the others are 0 or say where,
 * and nothing lent is changed but scratch. Nothing is allocated and nothing is kept between calls, so calls that share no list that
 * is written may run at once. Floats are rounded to nearest, with no flush to zero, as they are unless a program asks otherwise.
 */
#ifndef SITJORBE_H
#define SITJORBE_H

#include <stddef.h>
#include <stdint.h>
#ifndef __cplusplus
#include <stdbool.h>
#endif

#define SITJORBE_VERSION "{version}"
#define SITJORBE_ABI {number}

#ifdef __cplusplus
#define SITJORBE_ASSERT(fact) static_assert(fact, "another layout than the library's: " #fact)
#else
#define SITJORBE_ASSERT(fact) _Static_assert(fact, "another layout than the library's: " #fact)
#endif

#if defined(__GNUC__)
#define SITJORBE_MUST_USE __attribute__((warn_unused_result))
#else
#define SITJORBE_MUST_USE
#endif

#ifdef __cplusplus
extern "C" {{
#endif

SITJORBE_ASSERT(sizeof(size_t) == 8);
SITJORBE_ASSERT(sizeof(bool) == 1);
SITJORBE_ASSERT(sizeof(double) == 8);

/* ---- numbers */

{limits}

{enums}

/** What is wrong and what to do about it, in English; of a number that no refusal has, that it isn't known. */
static inline const char *sitjorbe_refusal_words(uint32_t refusal) {{
    switch (refusal) {{
    case 0:
        return "not refused";
{words}
    default:
        return "this refusal isn't known";
    }}
}}

/* ---- answers */

{structs}

/* ---- entries
 *
 * The names of their parameters mean the same everywhere; a name's length is the same name with _len.
 *
{glossary}
 */

{functions}

/* ---- the same with structs
 *
 * Parameters that belong together as structs, and for each entry that takes some of them a call that takes the structs; what it doesn't write may be const.
 */

{grouped}

/* Every file that includes this one asks for the entry with the number of its shape, so that it links with no other library. */
#if defined(__GNUC__)
#if defined(__has_attribute)
#if __has_attribute(retain)
__attribute__((retain))
#endif
#endif
__attribute__((used)) static uint32_t (*const sitjorbe_abi)(void) = sitjorbe_abi_{number};
#endif

#ifdef __cplusplus
}}
#endif

#endif
"""


def header(reading):
    """The text of include/sitjorbe.h."""
    import calls  # which is made of what stands above

    return HEADER.format(
        version=commands.version(),
        number=reading.number(),
        limits="\n\n".join(c_limit(*limit) for limit in host_limits()),
        enums="\n\n".join(c_enum(*each) for each in ENUMS.items()),
        words=c_refusal_words(),
        structs="\n\n".join(c_declared(reading, struct) for struct in reading.structs),
        glossary=c_glossary(reading),
        functions="\n\n".join(map(c_function, reading.functions)),
        grouped=calls.text(reading))


# ---- Rust


def rust_comment(text, indent=""):
    lines = textwrap.wrap(text, WIDTH - len(indent) - 4, break_long_words=False, break_on_hyphens=False)
    return "\n".join(f"{indent}/// {line}" for line in lines)


def rust_type(typed):
    return f"*{typed.pointer} {typed.kind}" if typed.pointer else typed.kind


def rust_function(function):
    head, answer = f"    pub fn {function.name}(", f" -> {function.answer}" if function.answer else ""
    parameters = [f"{typed.name}: {rust_type(typed)}" for typed in function.parameters]
    line = f"{head}{', '.join(parameters)})"
    if len(line + answer) < WIDTH - 1:
        line += f"{answer};"
    elif len(line) <= WIDTH:
        line += f"\n       {answer};"
    else:
        line = "\n        ".join([head, *(f"{parameter}," for parameter in parameters)]) + f"\n    ){answer};"
    return f"{rust_comment(function.words, '    ')}\n{line}"


def rust_struct(reading, struct):
    lines = [rust_comment(told(reading, struct)), "#[repr(C)]", "#[derive(Clone, Copy, Debug, PartialEq)]", '#[must_use = "an answer may be a refusal"]',
             f"pub struct {struct.name} {{"]
    for field in struct.fields:
        about = words_of(names.FIELDS, struct.name, field.name)
        lines += [rust_comment(f"{about[0].upper()}{about[1:]}.", "    "), f"    pub {field.name}: {field.kind},"]
    return "\n".join([*lines, "}"])


def rust_layout(reading, struct):
    *offsets, size = reading.offsets(struct)
    lines = [f"    assert!(offset_of!({struct.name}, {field.name}) == {offset});" for field, offset in zip(struct.fields, offsets)]
    return "\n".join([*lines, f"    assert!(size_of::<{struct.name}>() == {size});"])


RUST = """\
//! The library's entries as they cross: the `extern "C"` functions of all crates, with each slice as two parameters, pointer and length,
//! in the order of the Rattle signature, and a reference to a number as its pointer. Written by tools/bindings from their source.
//!
//! A pointer and its length must be those of one slice, and a pointer without a length that of a number; what may be written overlaps
//! nothing else that is lent. That is all an entry asks, and the wrappers in the crate's root see to it. "SCOPE" is what
//! docs/SCOPE.md and docs/FORMATS.md set out.

use core::mem::{{offset_of, size_of}};

/// The number of the shape that these declarations have: the library links only if its number is the same.
pub const ABI: u32 = {number};

{structs}

/// As C lays the answers out on x86-64.
#[cfg(target_pointer_width = "64")]
const _: () = {{
{layouts}
}};

/// The number of the shape that the library has. It is [`ABI`], since a library of another shape doesn't link.
#[must_use]
pub fn abi() -> u32 {{
    // SAFETY: it takes nothing, and answers a number.
    unsafe {{ sitjorbe_abi_{number}() }}
}}

/// Keeps the name of the shape's entry in every program, also in one that calls entries without the wrappers.
#[used]
static SHAPE: unsafe extern "C" fn() -> u32 = sitjorbe_abi_{number};

#[link(name = "sitjorbe", kind = "static")]
extern "C" {{
{functions}
}}
"""


def rust(reading):
    """The text of host/src/ffi.rs."""
    return RUST.format(
        number=reading.number(),
        structs="\n\n".join(rust_struct(reading, struct) for struct in reading.structs),
        layouts="\n".join(rust_layout(reading, struct) for struct in reading.structs),
        functions="\n\n".join(map(rust_function, reading.functions)))
