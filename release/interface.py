#!/usr/bin/env python3
"""Makes what repeats include/deltat.h from it, and finds where a copy differs.

    release/interface.py            compares, and names each difference
    release/interface.py write      writes the files anew
    release/interface.py rust       prints the Rust declarations

The header is the source. Made from it: the Rust declarations (RUST), the ctypes tables (PYTHON), the places of fields
that tests/library/layout.c has a compiler check, the names in lib/names.c, and the enums of include/deltat.hpp; and
from include/deltat_udp.h the Rust declarations (RUST_UDP) and the ctypes tables of the driver (PYTHON_UDP).
release/manpage.py takes the calls of libdeltat(3) from here, and tests/library.py the loops. Compared with it:
DELTAT_VERSION with VERSION, and the exports and structs of crates/dt_c, name by name and type by type. Ends with 1 if
something differs, and with 2 if the words are wrong or the header isn't understood.

It reads the C that the header has: `#define NAME VALUE`, enums with a number for each name, structs of plain fields,
and prototypes. Anything else is an error."""
import re
import sys
from collections.abc import Callable, Iterator
from functools import cache
from pathlib import Path
from typing import NamedTuple

TOP = Path(__file__).resolve().parent.parent
HEADER = TOP / "include" / "deltat.h"
UDP_HEADER = TOP / "include" / "deltat_udp.h"
RUST = TOP / "bindings" / "rust" / "deltat-sys" / "src" / "sys.rs"
RUST_UDP = TOP / "bindings" / "rust" / "deltat-udp-sys" / "src" / "sys.rs"
PYTHON = TOP / "bindings" / "python" / "deltat" / "_c.py"
PYTHON_UDP = TOP / "bindings" / "python" / "deltat" / "_c_udp.py"
LAYOUT = TOP / "tests" / "library" / "layout.c"
NAMES = TOP / "lib" / "names.c"
CPLUS = TOP / "include" / "deltat.hpp"
MADE_BY = "made by release/interface.py from include/deltat.h; to change it, change that"


class Unreadable(Exception):
    """The header has something that isn't understood."""


# --- what a header has


class Type(NamedTuple):
    """A type of a field, an argument or a result: its name without `struct` and `const`. `count`: how many an array
    has. `arguments`: of a pointer to a function, whose result has the name."""

    name: str
    is_pointer: bool = False
    is_const: bool = False
    count: int = 0
    arguments: tuple["Type", ...] | None = None


class Field(NamedTuple):
    """A field of a struct, or a parameter of a function."""

    type: Type
    name: str
    says: str = ""


class Status(NamedTuple):
    """A line of a function's comment: a status that it returns, and when."""

    name: str
    says: str


class Doc(NamedTuple):
    """A comment in its parts: paragraphs, then statuses, then what follows them."""

    text: str
    statuses: tuple[Status, ...] = ()
    after: str = ""

    @property
    def first_sentence(self) -> str:
        return re.split(r"(?<=[.:]) ", self.text)[0]


class Constant(NamedTuple):
    name: str
    value: int | str
    says: str


class Member(NamedTuple):
    name: str
    value: int
    says: str


class Enum(NamedTuple):
    name: str
    members: tuple[Member, ...]
    says: str

    @property
    def prefix(self) -> str:
        """What the names of the members have in common, up to the last `_`."""
        names = [it.name for it in self.members]
        same = 0
        while all(len(it) > same and it[same] == names[0][same] for it in names):
            same += 1
        return names[0][:names[0].rfind("_", 0, same) + 1]


class Struct(NamedTuple):
    name: str
    fields: tuple[Field, ...]
    says: str

    @property
    def is_sized(self) -> bool:
        """Whether it begins with its size, so that it may grow."""
        return self.fields[0].name == "size"


class Function(NamedTuple):
    name: str
    result: Type
    parameters: tuple[Field, ...]
    doc: Doc
    prototype: str


class Header(NamedTuple):
    constants: tuple[Constant, ...]
    enums: tuple[Enum, ...]
    opaque: tuple[str, ...]
    structs: tuple[Struct, ...]
    functions: tuple[Function, ...]

    def enum(self, name: str) -> Enum:
        return next(it for it in self.enums if it.name == name)


# --- reading


COMMENT = re.compile(r"/\*(.*?)\*/", re.DOTALL)
NAME = r"[A-Za-z_]\w*"
STATUS = re.compile(r"  (DT_\w+)(?:  +(.*))?")
# names of types without `struct` that stand for another one
ALIASES = {"dt_status": "uint8_t"}


def plain(comment: str) -> str:
    """The words of a comment in one line."""
    return " ".join(re.sub(r"(?m)^\s*\*? ?", "", comment).split())


def doc_of(comment: str) -> Doc:
    """A function's comment in its parts. A line of a status has two blanks before it, its further lines more."""
    text: list[str] = []
    statuses: list[Status] = []
    after: list[str] = []
    for line in re.sub(r"(?m)^\s*\* ?", "", comment.strip()).splitlines():
        found = STATUS.fullmatch(line.rstrip())
        if found:
            # several statuses in a line, without words
            is_list = not found[2] or re.fullmatch(r"(DT_\w+ *)+", found[2])
            names = re.findall(r"DT_\w+", line) if is_list else [found[1]]
            statuses += [Status(it, found[2] if len(names) == 1 and found[2] else "") for it in names]
        elif statuses and line.startswith("   ") and not after:
            last = statuses[-1]
            statuses[-1] = last._replace(says=f"{last.says} {line.strip()}".strip())
        else:
            (after if statuses else text).append(line.strip())
    words = " ".join(text)
    # statuses that follow the text in the same line: `Gets the counters.   DT_OK  DT_NOT_OPEN`
    if found := re.search(r"   (DT_.*)$", words):
        words = words[:found.start()]
        statuses += [Status(it[1], it[2] or "") for it in re.finditer(r"(DT_\w+)(?:: ([^:]*?))?(?:  |$)", found[1])]
    return Doc(" ".join(words.split()), tuple(statuses), " ".join(" ".join(after).split()))


def type_of(text: str) -> Type:
    """A type as C spells it, without the name of what has it."""
    found = re.fullmatch(rf"(const )?(?:struct )?({NAME}) ?(\*?)", text.strip())
    if not found:
        raise Unreadable(f"no type is known of: {text}")
    return Type(found[2], bool(found[3]), bool(found[1]))


def fields_of(body: str) -> Iterator[Field]:
    """The fields between the braces of a struct, each with the comment behind it."""
    for found in re.finditer(r"([^;/]+);[ \t]*(?:/\*(.*?)\*/)?|/\*.*?\*/", body, re.DOTALL):
        if found[1] is None:
            continue
        says, text = plain(found[2] or ""), " ".join(found[1].split())
        if function := re.fullmatch(rf"({NAME}) \(\*({NAME})\)\((.*)\)", text):
            arguments = [re.fullmatch(rf"(.*?){NAME}", it) for it in function[3].split(", ")]
            yield Field(Type(function[1], arguments=tuple(type_of(it[1]) for it in arguments if it)), function[2], says)
            continue
        declared = re.fullmatch(rf"((?:const )?(?:struct )?{NAME}) ?(\*?{NAME}(?:\[\d+\])?(?:, \*?{NAME})*)", text)
        if not declared:
            raise Unreadable(f"no field is known of: {text}")
        for name in declared[2].split(", "):
            stars, bare_name, count = re.fullmatch(rf"(\*?)({NAME})(?:\[(\d+)\])?", name).groups()
            yield Field(type_of(declared[1] + stars)._replace(count=int(count or 0)), bare_name, says)


def members_of(body: str) -> Iterator[Member]:
    # a comment behind a member is its own, where the comma stands before it
    for found in re.finditer(rf"({NAME}) = (\d+),?\s*(?:/\*(.*?)\*/)?", body, re.DOTALL):
        yield Member(found[1], int(found[2]), plain(found[3] or ""))


def function_of(text: str, doc: Doc) -> Function:
    found = re.fullmatch(rf"((?:const )?(?:struct )?{NAME}) ?(\*?)({NAME})\((.*)\);", " ".join(text.split()))
    if not found:
        raise Unreadable(f"no prototype is known of: {text}")
    parameters = []
    for it in found[4].split(", ") if found[4] != "void" else ():
        declared = re.fullmatch(rf"(.*?)({NAME})", it)
        assert declared
        parameters.append(Field(type_of(declared[1]), declared[2]))
    return Function(found[3], type_of(found[1] + found[2]), tuple(parameters), doc, " ".join(text.split()))


def constant_of(name: str, text: str, says: str) -> Constant:
    if text == "UINT64_MAX":
        return Constant(name, 2**64 - 1, says)
    if found := re.fullmatch(r'"([^"]*)"', text):
        return Constant(name, found[1], says)
    return Constant(name, int(text.removesuffix("u"), 0), says)


PARTS = re.compile(
    r"(?P<comment>/\*.*?\*/)"
    rf"|\#define (?P<constant>{NAME}) (?P<value>\S+)[ \t]*(?:/\*(?P<beside>.*?)\*/)?"
    r"|(?P<other>\#(?:[^\n]*\\\n)*[^\n]*)|(?P<language>extern \"C\" \{|\})"
    rf"|typedef struct (?P<opaque>{NAME}) \w+;|(?P<alias>typedef [^;]*;)"
    rf"|enum \{{ (?P<single>{NAME}) = (?P<number>\d+) \}};"
    rf"|enum (?P<enum>{NAME}) \{{(?P<members>.*?)\n?\}};"
    rf"|struct (?P<struct>{NAME}) \{{(?P<fields>.*?)\n\}};"
    r"|(?P<function>(?:const )?(?:struct )?\w+[ *]+dt_\w+\([^;{]*\);)",
    re.DOTALL,
)


def read(text: str) -> Header:
    """The parts of the header, in their order."""
    constants, enums, opaque, structs, functions = [], [], [], [], []
    at, comment = 0, ""
    while at < len(text):
        if text[at].isspace():
            # what a blank line parts belongs to nothing
            comment = "" if text.startswith("\n\n", at) else comment
            at += 1
            continue
        found = PARTS.match(text, at)
        if not found:
            raise Unreadable(f"no part is known of: {text[at:].splitlines()[0]}")
        at = found.end()
        if found["comment"]:
            comment = found["comment"][2:-2]
            continue
        if found["constant"]:
            constants.append(constant_of(found["constant"], found["value"], plain(found["beside"] or "")))
        elif found["single"]:
            constants.append(constant_of(found["single"], found["number"], plain(comment)))
        elif found["opaque"]:
            opaque.append(found["opaque"])
        elif found["enum"]:
            inside = re.match(r"\s*/\*(.*?)\*/", found["members"], re.DOTALL)
            body = found["members"][inside.end():] if inside else found["members"]
            enums.append(Enum(found["enum"], tuple(members_of(body)), plain(inside[1] if inside else comment)))
        elif found["struct"]:
            inside = re.match(r"\s*/\*(.*?)\*/", found["fields"], re.DOTALL)
            body = found["fields"][inside.end():] if inside else found["fields"]
            structs.append(Struct(found["struct"], tuple(fields_of(body)), plain(inside[1] if inside else comment)))
        elif found["function"]:
            functions.append(function_of(found["function"], doc_of(comment)))
        comment = ""
    return Header(tuple(constants), tuple(enums), tuple(opaque), tuple(structs), tuple(functions))


@cache
def header() -> Header:
    text = HEADER.read_text()
    # the first comment and the guard of the header say nothing of its parts
    return read(text[text.index('#ifdef __cplusplus\nextern "C" {'):])


@cache
def udp_header() -> Header:
    text = UDP_HEADER.read_text()
    return read(text[text.index('#ifdef __cplusplus\nextern "C" {'):])


# --- the loops at its head


def code(begins: str) -> list[str]:
    """The pieces of code in the comment of the header that has this line: lines with three blanks before them."""
    text = HEADER.read_text()
    comment = text[text.index(begins):].partition("*/")[0]
    lines = [it[5:] if it.startswith(" *   ") else "" for it in comment.splitlines()]
    return ["\n".join(it.splitlines()) + "\n" for it in re.split(r"\n{2,}", "\n".join(lines).strip("\n"))]


# --- places of fields


SIZES = {"bool": 1, "uint8_t": 1, "uint16_t": 2, "uint32_t": 4, "uint64_t": 8, "size_t": 8, "double": 8}


def extent(it: Type) -> tuple[int, int]:
    """How many octets a type has where pointers have eight, and to how many it is aligned."""
    name = ALIASES.get(it.name, it.name)
    if it.is_pointer:
        return 8, 8
    if name in SIZES:
        return SIZES[name] * (it.count or 1), SIZES[name]
    struct = next((one for one in header().structs if one.name == name), None)
    if struct is None:
        raise Unreadable(f"no size is known of {name}")
    places, size = layout(struct)
    return size, max(extent(field.type)[1] for field in struct.fields)


@cache
def layout(it: Struct) -> tuple[dict[str, int], int]:
    """Where each field begins, and the size, by the rules of C."""
    places, at, most = {}, 0, 1
    for field in it.fields:
        size, align = extent(field.type)
        at = -(-at // align) * align
        places[field.name] = at
        at, most = at + size, max(most, align)
    return places, -(-at // most) * most


# --- names in other languages


def camel(name: str) -> str:
    """`dt_node_options` as NodeOptions."""
    return "".join(it.capitalize() for it in name.removeprefix("dt_").split("_"))


def wrapped(text: str, mark: str, width: int = 116) -> Iterator[str]:
    """Words as lines behind a mark."""
    line = mark
    for word in text.split():
        if len(line) + 1 + len(word) > width and line != mark:
            yield line
            line = mark
        line += f" {word}"
    if line != mark:
        yield line


# --- Rust


RUST_TYPES = {
    "bool": "bool", "uint8_t": "u8", "uint16_t": "u16", "uint32_t": "u32", "uint64_t": "u64", "size_t": "usize",
    "double": "f64", "char": "c_char", "void": "c_void", "int": "c_int", "int32_t": "i32", "int64_t": "i64",
}


def rust_type(it: Type) -> str:
    name = RUST_TYPES.get(it.name, it.name)
    if it.arguments is not None:
        result = "" if it.name == "void" else f" -> {name}"
        return f"Option<unsafe extern \"C\" fn({', '.join(map(rust_type, it.arguments))}){result}>"
    if it.count:
        return f"[{name}; {it.count}]"
    return f"*{'const' if it.is_const else 'mut'} {name}" if it.is_pointer else name


def rust_words(text: str) -> str:
    """Words of a comment, in which brackets name no item."""
    return re.sub(r"([\[\]])", r"\\\1", text)


def rust_doc(doc: Doc, indent: str = "") -> Iterator[str]:
    yield from wrapped(doc.text, f"{indent}///")
    if doc.statuses:
        yield f"{indent}///"
    for it in doc.statuses:
        first, *others = wrapped(f"- `{it.name}`{': ' + it.says if it.says else ''}", f"{indent}///")
        yield first
        yield from (f"{indent}///  {line.removeprefix(f'{indent}///')}" for line in others)
    if doc.after:
        yield f"{indent}///"
        yield from wrapped(doc.after, f"{indent}///")


def rust_zero(it: Field) -> str:
    if it.type.arguments is not None:
        return "None"
    if it.type.count:
        return f"[{rust_zero(it._replace(type=it.type._replace(count=0)))}; {it.type.count}]"
    if it.type.is_pointer:
        return "core::ptr::null()" if it.type.is_const else "core::ptr::null_mut()"
    name = ALIASES.get(it.type.name, it.type.name)
    if name not in SIZES and name not in RUST_TYPES:
        return f"{name}::new()"
    return {"bool": "false", "double": "0.0"}.get(name, "0")


def rust_struct(it: Struct) -> Iterator[str]:
    yield from wrapped(rust_words(it.says), "///")
    # (a comparison of pointers or floating numbers would surprise)
    names = [field.type.name for field in it.fields]
    equal = (
        not any(one.type.is_pointer or one.type.arguments is not None for one in it.fields) and "double" not in names
    )
    yield "#[repr(C)]"
    yield f"#[derive(Clone, Copy, Debug{', PartialEq, Eq, Hash' if equal else ''})]"
    yield f"pub struct {it.name} {{"
    for field in it.fields:
        yield from wrapped(rust_words(field.says), "    ///")
        yield f"    pub {field.name}: {rust_type(field.type)},"
    yield from ["}", "", f"impl {it.name} {{"]
    yield "    /// All fields 0, and `size` as it has to be." if it.is_sized else "    /// All fields 0."
    yield "    pub const fn new() -> Self {"
    yield "        Self {"
    for field in it.fields:
        value = "core::mem::size_of::<Self>() as u32" if field.name == "size" and it.is_sized else rust_zero(field)
        yield f"            {field.name}: {value},"
    yield from ["        }", "    }", "}", ""]
    yield from [f"impl Default for {it.name} {{", "    fn default() -> Self {", "        Self::new()", "    }", "}", ""]


def rust_constants(it: Header) -> Iterator[str]:
    for constant in it.constants:
        yield from wrapped(constant.says, "///")
        if isinstance(constant.value, str):
            yield f'pub const {constant.name}: &str = "{constant.value}";'
        else:
            kind = "u64" if constant.value >= 2**32 else "u32" if "VERSION" in constant.name else "usize"
            yield f"pub const {constant.name}: {kind} = {constant.value:_};"
    yield ""
    for enum in it.enums:
        yield from wrapped(f"`enum {enum.name}`{': ' + enum.says if enum.says else ''}", "//")
        for member in enum.members:
            yield from wrapped(member.says, "///")
            yield f"pub const {member.name}: u8 = {member.value};"
        yield ""


def rust_function(it: Function) -> Iterator[str]:
    yield from rust_doc(it.doc, "    ")
    result = "" if it.result == Type("void") else f" -> {rust_type(it.result)}"
    parameters = [f"{one.name}: {rust_type(one.type)}" for one in it.parameters]
    line = f"    pub fn {it.name}({', '.join(parameters)}){result};"
    if len(line) <= 100:
        yield line
    else:
        yield from [f"    pub fn {it.name}(", *(f"        {one}," for one in parameters), f"    ){result};"]


def rust_body(it: Header) -> Iterator[str]:
    """What a header declares, from its handles on."""
    for name in it.opaque:
        yield from ["/// A handle. Its octets are the library's.", "#[repr(C)]", f"pub struct {name} {{"]
        yield from ["    _data: [u8; 0],", "    _marker: PhantomData<(*mut u8, PhantomPinned)>,", "}", ""]
    for struct in it.structs:
        yield from rust_struct(struct)
    yield 'extern "C" {'
    for number, function in enumerate(it.functions):
        yield from [""] if number else []
        yield from rust_function(function)
    yield "}"


def rust() -> str:
    """The declarations for Rust, under the names of C."""
    lines = [f"// {MADE_BY}.",
             "//! What libdeltat exports, as include/deltat.h has it: names, duties and statuses are those of C.",
             "#![allow(non_camel_case_types)]", "",
             "use core::marker::{PhantomData, PhantomPinned};",
             "use std::os::raw::c_char; // in core since Rust 1.64", ""]
    lines += rust_constants(header())
    lines += ["/// A status: one of the constants of `enum dt_status_code`.", "pub type dt_status = u8;", ""]
    return "\n".join([*lines, *rust_body(header())]) + "\n"


def rust_udp() -> str:
    """The same of the driver. Types of deltat.h are those of the crate deltat-sys."""
    lines = [
        f"// {MADE_BY.replace('deltat.h', 'deltat_udp.h')}.",
        "//! What libdeltat-udp exports, as include/deltat_udp.h has it: names, duties and statuses are those of C.",
        "#![allow(non_camel_case_types)]",
        "",
        "use core::ffi::c_void;",
        "use core::marker::{PhantomData, PhantomPinned};",
        "use std::os::raw::{c_char, c_int}; // in core since Rust 1.64",
        "",
        "use deltat_sys::*;",
        "",
    ]
    lines += rust_constants(udp_header())
    return "\n".join([*lines, *rust_body(udp_header())]) + "\n"


# --- Python


PYTHON_TYPES = {
    "bool": "c_bool", "uint8_t": "c_uint8", "uint16_t": "c_uint16", "uint32_t": "c_uint32", "uint64_t": "c_uint64",
    "size_t": "c_size_t", "double": "c_double", "dt_status": "c_uint8", "int": "c_int", "int32_t": "c_int32",
    "int64_t": "c_int64", "char": "c_char",
}
# enums whose name in Python isn't that of C without its prefix
PYTHON_ENUMS = {"dt_status_code": "Status", "dt_invalid": "InvalidReason"}


def python_name(name: str) -> str:
    """The name of a struct or an enum: those of the driver are in a module of their own, which has the others as
    `_c`."""
    return camel(name.removeprefix("dt_udp_")) if name.startswith("dt_udp_") else camel(name)


def python_type(it: Type, of: str = "") -> str:
    """`of`: what stands before the name of a struct that another module has."""
    if it.is_pointer and it.name == "char" and it.is_const:
        return "ctypes.c_char_p"
    # octets and handles: what is handed over has any type
    if it.is_pointer and (
        it.name in ("uint8_t", "char", "void", "dt_udp", "dt_udp_state") or it.name in header().opaque
    ):
        return "ctypes.c_void_p"
    if it.name in PYTHON_TYPES:
        name = f"ctypes.{PYTHON_TYPES[it.name]}"
    else:
        name = python_name(it.name) if it.name.startswith("dt_udp_") else of + camel(it.name)
    if it.count:
        return f"{name} * {it.count}"
    return f"ctypes.POINTER({name})" if it.is_pointer else name


def python_result(it: Type, of: str = "") -> str:
    return "None" if it == Type("void") else python_type(it, of)


def python_struct(it: Struct, of: str = "") -> Iterator[str]:
    name, types = python_name(it.name), {}
    for field in it.fields:
        types[field.name] = python_type(field.type, of)
        if field.type.arguments is not None:
            types[field.name] = f"{name}{camel(field.name)}"
            arguments = [python_type(one, of) for one in field.type.arguments]
            result = python_result(field.type._replace(arguments=None), of)
            yield f"{types[field.name]} = ctypes.CFUNCTYPE({', '.join([result, *arguments])})"
    if any(field.type.arguments is not None for field in it.fields):
        yield from ["", ""]
    yield from [f"class {name}(ctypes.Structure):"]
    says = f"{it.says[:1].upper()}{it.says[1:].rstrip('.')}" if 0 < len(it.says) < 100 else f"`struct {it.name}`"
    yield from [f'    """{says}."""', ""]
    yield "    _fields_ = ["
    yield from (f'        ("{name}", {of_type}),' for name, of_type in types.items())
    yield from ["    ]", "", ""]


def python_enum(it: Enum) -> Iterator[str]:
    yield f"class {PYTHON_ENUMS.get(it.name, python_name(it.name))}(enum.IntEnum):"
    yield f'    """`enum {it.name}`."""'
    yield ""
    yield from (f"    {member.name.removeprefix(it.prefix)} = {member.value}" for member in it.members)
    yield from ["", ""]


def python_function(it: Function, of: str = "") -> Iterator[str]:
    """A row of the table of functions: a line where it fits."""
    result = python_result(it.result, of)
    arguments = [python_type(one.type, of) for one in it.parameters]
    line = f'    "{it.name}": ({result}, [{", ".join(arguments)}]),'
    if len(line) <= 120:
        yield line
    else:
        yield from [f'    "{it.name}": (', f"        {result},", "        ["]
        yield from [*(f"            {one}," for one in arguments), "        ],", "    ),"]


PYTHON_HEAD = """from __future__ import annotations

import ctypes
import enum
from typing import Any, TypeVar
"""

PYTHON_END = """
Struct = TypeVar("Struct", bound=ctypes.Structure)


def sized(struct: type[Struct]) -> Struct:
    \"""A struct of this type, all 0 but its size.\"""
    it = struct()
    it.size = ctypes.sizeof(struct)
    return it


def load(path: str) -> ctypes.PyDLL:
    \"""Loads the library. A call of it takes some microseconds and never blocks, so it keeps the interpreter's lock: no
    other thread calls the same handle meanwhile, and none forks the process. Raises OSError if the library can't be
    loaded, and ImportError if it has another interface.\"""
    library = ctypes.PyDLL(path)
    # (interface 1 has the function by another name)
    version = getattr(library, "dt_abi_version", None) or getattr(library, "dt_abi", None)
    if version is None:
        raise ImportError(f"{path} isn't libdeltat: it has no dt_abi_version")
    found = version()
    if found != ABI_VERSION:
        raise ImportError(
            f"{path} has interface {found}, and this package needs {ABI_VERSION}; install library and package of one "
            "release"
        )
    for name, (result, arguments) in FUNCTIONS.items():
        function = getattr(library, name)
        function.restype, function.argtypes = result, arguments
    return library
"""


def python() -> str:
    """The tables of ctypes."""
    it = header()
    lines = ['"""The interface of libdeltat for ctypes.', "", f'{MADE_BY.capitalize()}."""']
    lines += [*PYTHON_HEAD.splitlines(), ""]
    for constant in it.constants:
        value = f'"{constant.value}"' if isinstance(constant.value, str) else f"{constant.value:_}"
        lines.append(f"{constant.name.removeprefix('DT_')} = {value}")
    lines += ["", ""]
    for enum in it.enums:
        lines += python_enum(enum)
    for struct in it.structs:
        lines += python_struct(struct)
    lines += ["# Each function: its result, and its arguments.", "FUNCTIONS: dict[str, tuple[Any, list[Any]]] = {"]
    for function in it.functions:
        lines += python_function(function)
    return "\n".join([*lines, "}"]) + "\n" + PYTHON_END


def python_udp() -> str:
    """The same of the driver."""
    it, made_by = udp_header(), MADE_BY.replace("deltat.h", "deltat_udp.h")
    lines = ['"""The interface of libdeltat-udp for ctypes.', "", f'{made_by.capitalize()}."""']
    lines += ["from __future__ import annotations", "", "import ctypes", "import enum", "from typing import Any", ""]
    lines += ["from . import _c", ""]
    lines += [f"{one.name.removeprefix('DT_UDP_')} = {one.value:_}" for one in it.constants]
    lines += ["", ""]
    for enum in it.enums:
        lines += python_enum(enum)
    for struct in it.structs:
        lines += python_struct(struct, "_c.")
    lines += ["# Each function: its result, and its arguments.", "FUNCTIONS: dict[str, tuple[Any, list[Any]]] = {"]
    for function in it.functions:
        lines += python_function(function, "_c.")
    return "\n".join([*lines, "}"]) + "\n"


# --- C


LAYOUT_HEAD = """ * It has nothing to run. */
#include "deltat.h"

#define SIZE(type, octets) typedef char size_of_##type[sizeof(struct type) == (octets) ? 1 : -1]
#define AT(type, field, octets) \\
    typedef char place_of_##type##_##field[offsetof(struct type, field) == (octets) ? 1 : -1]
"""
# what has a name for logs: the word, its enum, and the type of its number
NAMED = (
    ("status", "dt_status_code", "dt_status"),
    ("fault", "dt_fault", "uint8_t"),
    ("report", "dt_report_kind", "uint8_t"),
)


def layout_c() -> str:
    """The places of fields, which a compiler compares with the header."""
    lines = ["/* Where the fields of each struct are, by the rules of C, and so in crates/dt_c:"]
    lines += [f" * {MADE_BY}.", LAYOUT_HEAD]
    for it in header().structs:
        places, size = layout(it)
        lines.append(f"SIZE({it.name}, {size});")
        lines += [f"AT({it.name}, {name}, {at});" for name, at in places.items()]
        lines.append("")
    return "\n".join([*lines, "int main(void) { return 0; }"]) + "\n"


def names_c() -> str:
    """The names of statuses, faults and reports."""
    lines = [f"/* Names for logs: {MADE_BY}. */", '#include "deltat.h"', ""]
    lines += ["const char *dt_version(void) { return DELTAT_VERSION; }", ""]
    for what, enum, kind in NAMED:
        lines += [f"const char *dt_{what}_name({kind} {what}) {{", f"    switch ({what}) {{"]
        lines += [f'    case {it.name}: return "{it.name}";' for it in header().enum(enum).members]
        lines += [f'    default: return "unknown {what}";', "    }", "}", ""]
    return "\n".join(lines[:-1]) + "\n"


def cplus() -> str:
    """The header for C++, with the enums between its two marks."""
    lines: list[str] = []
    for it in header().enums:
        lines.append(f"enum class {PYTHON_ENUMS.get(it.name, camel(it.name))} : std::uint8_t {{")
        lines += [f"    {camel(one.name.removeprefix(it.prefix))} = {one.name}," for one in it.members]
        lines += ["};", ""]
    first, last = (f"// {it}: made by release/interface.py\n" for it in ("begin", "end"))
    before, _, behind = CPLUS.read_text().partition(first)
    return before + first + "\n".join(lines) + behind[behind.index(last):]


MADE: dict[Path, Callable[[], str]] = {
    RUST: rust,
    RUST_UDP: rust_udp,
    PYTHON: python,
    PYTHON_UDP: python_udp,
    LAYOUT: layout_c,
    NAMES: names_c,
    CPLUS: cplus,
}


# --- the exports


# what the structs of crates/dt_c are called, where it isn't their name here without its prefix
ALSO_IN_RATTLE = ("params", "flow", "link", "route", "report", "token", "network", "call_counts",
                  "passage", "arrival")
EXPORTED = {f"dt_{it}": f"C{camel(it)}" for it in ALSO_IN_RATTLE}
# the crates that have the structs
STRUCT_CRATES = ("dt_c", "dt_orders_turns")
# functions that plain C of lib/ has
IN_C = re.compile(r"dt_(version|(status|fault|report)_name|report_line|(node|service)_(new|free))")
RATTLE_TYPES = {
    "u8": "uint8_t", "u16": "uint16_t", "u32": "uint32_t", "u64": "uint64_t", "usize": "size_t", "bool": "bool",
    "Handle": "dt_node", "ServiceHandle": "dt_service", "WatchHandle": "dt_watch",
}
EXPORT = re.compile(r'extern "C" fn (\w+)\s*\(([^)]*)\)(?:\s*->\s*(\w+))?')
STRUCT = re.compile(r"#\[repr\(C\)\]\s*(?:#\[[^\n]*\]\s*)*pub struct (\w+)(?:<[^>]*>)? \{(.*?)\n\}", re.DOTALL)


def rattle_types(text: str) -> Iterator[Type]:
    """What a type of an export is in C: a slice is a pointer and a length, and the allocator is nothing."""
    names = {EXPORTED.get(it.name, camel(it.name)): it.name for it in header().structs}
    if array := re.fullmatch(r"\[(\w+); (\d+)\]", text):
        yield Type(RATTLE_TYPES[array[1]], count=int(array[2]))
        return
    found = re.fullmatch(r"(&mut |&(?:'a )?|\*mut )?\[?(\w+)(?:<[^>]*>)?\]?", text)
    if not found:
        raise Unreadable(f"no type of an export is known of: {text}")
    if found[2] == "Global":
        return
    name = RATTLE_TYPES.get(found[2], names.get(found[2], found[2]))
    yield Type(name, bool(found[1]), bool(found[1] and found[1].startswith("&") and "mut" not in found[1]))
    if "[" in text:
        yield Type("size_t")


def exported_functions() -> dict[str, tuple[list[Type], Type]]:
    """Each export of crates/dt_c: what it takes, and its result."""
    found = {}
    for path in sorted((TOP / "crates" / "dt_c" / "src").glob("*.rt")):
        for it in EXPORT.finditer(path.read_text()):
            takes = [one.split(":", 1)[1].strip() for one in re.split(r",\s*", it[2].strip()) if one]
            result = next(rattle_types(it[3])) if it[3] else Type("void")
            found[it[1]] = ([kind for one in takes for kind in rattle_types(one)], result)
    return found


def exported_structs() -> dict[str, list[Type]]:
    found = {}
    for path in sorted(it for crate in STRUCT_CRATES for it in (TOP / "crates" / crate / "src").glob("*.rt")):
        for it in STRUCT.finditer(path.read_text()):
            fields = re.findall(r"^\s*(?:pub )?(\w+): ([^,\n]+),", it[2], re.MULTILINE)
            found[it[1]] = [kind for _, one in fields for kind in rattle_types(one)]
    return found


def bare(it: Type) -> Type:
    return it._replace(name=ALIASES.get(it.name, it.name))


def differences_of_exports() -> Iterator[str]:
    """Where the header and the exports of crates/dt_c differ."""
    functions, structs = exported_functions(), exported_structs()
    wanted = {it.name: it for it in header().functions if not IN_C.fullmatch(it.name)}
    yield from (f"crates/dt_c doesn't export {it}" for it in sorted(wanted.keys() - functions.keys()))
    yield from (f"the header hasn't {it}, which crates/dt_c exports" for it in sorted(functions.keys() - wanted.keys()))
    for name in sorted(wanted.keys() & functions.keys()):
        takes, result = functions[name]
        if [bare(one.type) for one in wanted[name].parameters] != takes or bare(wanted[name].result) != result:
            yield f"{name} has another signature in crates/dt_c"
    for it in header().structs:
        other = EXPORTED.get(it.name, camel(it.name))
        if other not in structs:
            yield f"crates/dt_c has no {other} for struct {it.name}"
        elif [bare(one.type) for one in it.fields] != structs[other]:
            yield f"struct {it.name} and {other} of crates/dt_c have other fields"


def differences() -> Iterator[tuple[Path, str]]:
    """Where something isn't as the header has it: the file, and what is wrong."""
    version = (TOP / "VERSION").read_text().strip()
    numbers = {it.name: it.value for it in header().constants}
    parts = [numbers[f"DELTAT_VERSION_{it}"] for it in ("MAJOR", "MINOR", "PATCH")]
    if numbers["DELTAT_VERSION"] != version or ".".join(map(str, parts)) != version:
        yield HEADER, f"DELTAT_VERSION isn't {version}, as VERSION has it"
    for path, made in MADE.items():
        if not path.exists() or path.read_text() != made():
            yield path, "it isn't what release/interface.py makes of the header: release/interface.py write"
    yield from ((HEADER, it) for it in differences_of_exports())


def main(words: list[str]) -> int:
    try:
        match words:
            case []:
                found = list(differences())
                for path, what in found:
                    print(f"{path.relative_to(TOP)}: {what}")
                return 1 if found else 0
            case ["write"]:
                for path, made in MADE.items():
                    path.write_text(made())
                return 0
            case ["rust"]:
                print(rust(), end="")
                return 0
            case ["-h" | "--help"]:
                print(__doc__)
                return 0
    except (OSError, Unreadable) as why:
        print(f"interface.py: {why}", file=sys.stderr)
        return 2
    print(__doc__, file=sys.stderr)
    return 2


if __name__ == "__main__":
    sys.exit(main(sys.argv[1:]))
