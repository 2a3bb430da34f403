"""Compares the structs and functions of the header with the crates', and writes examples/layout.c."""
import re

from crates import Wrong, constant, source, value

# the crates whose functions make the archive
ARCHIVE = ["hasfandur", "hasfandur_dlc", "hasfandur_kiss", "hasfandur_conversion", "hasfandur_sheet"]

# structs of the header, and of the crates; a field that has another name in the crate
STRUCTS = [
    ("hasfandur_written", ["qaft_write::Written", "afp_write::Written"], {}),
    ("hasfandur_qaft_reader", ["qaft_plain::PlainReader"], {}),
    ("hasfandur_qaft_answer", ["qaft_plain::PlainAnswer"], {}),
    ("hasfandur_kiss_reader", ["kiss_plain::PlainReader"], {}),
    ("hasfandur_kiss_answer", ["kiss_plain::PlainAnswer"], {}),
    ("hasfandur_conversion", ["conversion::Conversion"], {}),
    ("hasfandur_dlc_queued", ["dlc_queue::Payload"], {"len": "length"}),
    ("hasfandur_dlc_queue", ["dlc_queue::Queue"], {}),
    ("hasfandur_dlc_link", ["dlc_plain::PlainLink"], {}),
    ("hasfandur_dlc_answer", ["dlc_answer::Answer"], {"code": "number"}),
    ("hasfandur_dlc_outcome", ["dlc_plain::PlainOutcome"], {}),
    ("hasfandur_part", ["afp::Part"], {}),
    ("hasfandur_reading", ["afp_read::Reading"], {}),
    ("hasfandur_receiver", ["afp_receiver::PlainReceiver"], {}),
    ("hasfandur_counts", ["sheet::Counts"], {}),
    ("hasfandur_tally", ["sheet::Tally"], {}),
]
C_TYPES = {"u8": "uint8_t", "u16": "uint16_t", "u32": "uint32_t", "u64": "uint64_t", "usize": "size_t", "bool": "bool"}
# octets of each on a machine with 64-bit size_t, and its alignment
OCTETS = {"uint8_t": 1, "bool": 1, "uint16_t": 2, "uint32_t": 4, "uint64_t": 8, "size_t": 8}

LAYOUT_HEAD = '''/*
 * Sizes and offsets of the header's structs on a machine with 64-bit size_t, as the crates' structs have them, and what the size
 * macros come to. It is built as C and as C++, and does nothing. Written by include/numbers.
 */
#include "hasfandur.h"

#include <assert.h>
#include <stddef.h>

#define FIELD(type, field, at, size) \\
    static_assert(offsetof(type, field) == (at) && sizeof(((type *)0)->field) == (size), #type "." #field)
'''.split("\n")
LAYOUT_END = '''static_assert(HASFANDUR_QAFT_FRAME_SIZE(HASFANDUR_QAFT_MAX_DATA) == HASFANDUR_QAFT_MAX_FRAME, "longest QAFT frame");
static_assert(HASFANDUR_QAFT_FCS_FRAME_SIZE(HASFANDUR_QAFT_MAX_DATA) == HASFANDUR_QAFT_FCS_MAX_FRAME, "longest frame with the check sequence");
static_assert(HASFANDUR_KISS_FRAME_SIZE(HASFANDUR_QAFT_MAX_DATA) == HASFANDUR_KISS_MAX_FRAME, "longest KISS frame");
static_assert(HASFANDUR_DLC_PACKET_SIZE(HASFANDUR_DLC_MAX_PAYLOAD) == HASFANDUR_DLC_MAX_PACKET, "longest packet");
static_assert(HASFANDUR_DLC_SLOTS * HASFANDUR_DLC_MAX_PACKET == HASFANDUR_DLC_REPLY_SIZE, "reply");
static_assert(HASFANDUR_AFP_FRAME_SIZE(HASFANDUR_AFP_MIN_HEADER - 6, 0, 0) == HASFANDUR_AFP_MIN_FRAME, "shortest AFP frame");
static_assert(HASFANDUR_SHEET_REPEATS + 1 == HASFANDUR_SHEET_COUNTS, "counts of a line");

int main(void)
{
    return 0;
}'''.split("\n")


def fields(struct, names):
    """The fields of a crate's struct as C has them: (type, name, how many or None), by the names given for some."""
    crate, name = struct.split("::")
    m = re.search(rf"^#\[repr\(C\)\]\n(?:#\[derive\([^\n]*\)\]\n)?pub struct {name} \{{\n(.*?)^\}}", source(crate), re.M | re.S)
    if not m:
        raise Wrong(f"no #[repr(C)] struct {struct}")
    found = []
    for field, kind in re.findall(r"^ *pub (\w+): (.*),$", m.group(1), re.M):
        array = re.fullmatch(r"\[(.*); (.*)\]", kind)
        many = value(array.group(2), lambda w: constant(crate, w)) if array else None
        found.append((c_type(array.group(1) if array else kind, crate), names.get(field, field), many))
    return found


def c_type(kind, crate):
    """A type of the code as the header writes it. `crate` is where it stands; a struct may come from another by `use`."""
    if kind in C_TYPES:
        return C_TYPES[kind]
    if "::" not in kind:
        taken = re.search(rf"^use (\w+)::(?:{kind}|\{{[^}}]*\b{kind}\b[^}}]*\}});$", source(crate), re.M)
        kind = f"{taken.group(1) if taken else crate}::{kind}"
    for name, structs, _ in STRUCTS:
        if kind in structs:
            return name
    raise Wrong(f"no type of the header stands for {kind}")


def layout(name):
    """Size, alignment and (field, offset, size) of a struct on a machine with 64-bit size_t."""
    at, align, found = 0, 1, []
    for kind, field, many in dict((n, fields(s[0], f)) for n, s, f in STRUCTS)[name]:
        size, step = (OCTETS[kind], OCTETS[kind]) if kind in OCTETS else layout(kind)[:2]
        at += -at % step
        found.append((field, at, size * (many or 1)))
        at, align = at + size * (many or 1), max(align, step)
    return at + -at % align, align, found


def check_structs(header, known):
    for name, structs, names in STRUCTS:
        m = re.search(rf"^typedef struct {name} \{{\n(.*?)^\}} {name};", header, re.M | re.S)
        if not m:
            raise Wrong(f"no struct {name} in the header")
        said = [(k, f, known.get(n) if n else None) for k, f, n in re.findall(r"^ *(\w+) (\w+)(?:\[HASFANDUR_(\w+)\])?;", m.group(1), re.M)]
        for struct in structs:
            if said != fields(struct, names):
                raise Wrong(f"{name}: {said} in the header, {fields(struct, names)} in {struct}")
    more = set(re.findall(r"^typedef struct (\w+) \{", header, re.M)) - {name for name, _, _ in STRUCTS}
    if more:
        raise Wrong(f"structs of the header that are not in the table: {more}")


def parameter(kind, crate):
    """The types that C passes for one of the code's; a slice crosses as a pointer and a length."""
    if m := re.fullmatch(r"&(mut )?\[([\w:]+)\]", kind):
        return [f"{'' if m.group(1) else 'const '}{c_type(m.group(2), crate)} *", "size_t"]
    return [c_type(kind, crate)]


def check_functions(header):
    """Types of what each function gives back and takes."""
    ours = {}
    for crate in ARCHIVE:
        for name, takes, gives in re.findall(r'^pub extern "C" fn (\w+)\((.*?)\) -> ([\w:]+)', source(crate), re.M | re.S):
            kinds = [w.split(": ")[1].strip() for w in takes.split(",") if ": " in w]
            ours[name] = [c_type(gives, crate)] + [t for k in kinds for t in parameter(k, crate)]
    text = re.sub(r"/\*.*?\*/", "", header, flags=re.S).replace("hasfandur_afp_written", "hasfandur_written")
    theirs = {}
    for gives, name, takes in re.findall(r"^(?:HASFANDUR_MUST_USE )?(\w+) (hasfandur_\w+)\(([^)]*)\);", text, re.M):
        parameters = [] if takes == "void" else [re.sub(r"\w+$", "", " ".join(w.split())).strip() for w in takes.split(",")]
        theirs[name] = [gives] + parameters
    if ours != theirs:
        raise Wrong("functions differ: " + "; ".join(f"{n}: {ours.get(n)} in the crate, {theirs.get(n)} in the header"
                                                   for n in sorted({*ours, *theirs}) if ours.get(n) != theirs.get(n)))


def layout_c():
    """The lines of examples/layout.c."""
    lines = LAYOUT_HEAD[:]
    for name, _, _ in STRUCTS:
        size, _, found = layout(name)
        lines.append(f'static_assert(sizeof({name}) == {size}, "{name}");')
        lines += [f"FIELD({name}, {field}, {at}, {room});" for field, at, room in found]
        lines.append("")
    return lines + LAYOUT_END
