"""Compares what the bindings declare with include/tt_render.h: the structs of both, the calls of Rust, the versions.

    declarations.py ROOT

Prints a line for each difference, after the name of the binding."""
import pathlib
import re
import sys

ROOT = pathlib.Path(sys.argv[1])
HEADER = re.sub(r"/\*.*?\*/", "", (ROOT / "include/tt_render.h").read_text(encoding="utf-8"), flags=re.S)
PYTHON = (ROOT / "bindings/python/tt_render/_library.py").read_text(encoding="utf-8")
RUST = re.sub(r"///.*", "", (ROOT / "bindings/rust/src/c.rs").read_text(encoding="utf-8"))

# The types of C by those of Python and of Rust, and the structs of Rust whose names are others.
OF_PYTHON = {"u32": "uint32_t", "i32": "int32_t", "u64": "uint64_t", "i64": "int64_t",
             "c_char * 4": "uint8_t[4]", "c_char * 68": "uint8_t[68]", "i32 * 64": "int32_t[64]",
             "tt_axis * 16": "tt_axis[16]", "tt_box": "tt_box", "tt_picture": "tt_picture",
             "tt_underline": "tt_underline"}
OF_RUST = {"u8": "uint8_t", "u32": "uint32_t", "i32": "int32_t", "u64": "uint64_t", "i64": "int64_t",
           "usize": "size_t", "c_int": "int", "[u8; 4]": "uint8_t[4]", "[u8; 68]": "uint8_t[68]",
           "[i32; 64]": "int32_t[64]", "[Axis; 16]": "tt_axis[16]"}
NAMES = {"Figures": "tt_font", "Shape": "tt_picture", "PixelBox": "tt_box", "LabelJob": "tt_label_job",
         "AxisRange": "tt_axis_range"}


def of_rust(kind):
    """Returns the type of C for one of Rust."""
    pointer, _, name = kind.rpartition(" ") if kind[0] == "*" else ("", "", kind)
    name = OF_RUST.get(name) or NAMES.get(name, f"tt_{name.lower()}")
    return {"*const": f"const {name} *", "*mut": f"{name} *"}.get(pointer, name)


def structs_of_header():
    """Returns the fields of each struct, with their types."""
    found = {}
    for name, body in re.findall(r"^struct (tt_\w+) \{\n(.*?)^\};", HEADER, re.M | re.S):
        fields = re.findall(r"^\s*(?:struct )?(\w+) (\w+)(\[\d+\])?;", body, re.M)
        found[name] = [(field, kind + size) for kind, field, size in fields]
    return found


def calls_of_header():
    """Returns the parameters of each call, with their types, and its result."""
    found = {}
    for result, name, words in re.findall(r"^(\w+) (tt_\w+)\((.*?)\);", HEADER, re.M | re.S):
        words = [re.fullmatch(r"(.*?)(\w+)", " ".join(it.split())) for it in words.replace("struct ", "").split(",")]
        found[name] = [*((it[2], it[1].strip()) for it in words if it[2] != "void"), ("", result)]
    return found


def structs_of_python():
    found = {}
    for name, words in re.findall(r'_struct\("(tt_\w+)",(.*?)\)\n', PYTHON, re.S):
        words = [it.split("=") for it in " ".join(words.split()).split(", ")]
        found[name] = [(field, OF_PYTHON[kind]) for field, kind in words]
    return found


def structs_of_rust():
    found = {}
    for name, body in re.findall(r"pub struct (\w+) \{\n(.*?)^\}", RUST, re.M | re.S):
        fields = [(field, of_rust(kind)) for field, kind in re.findall(r"pub (\w+): (.*),", body)]
        found[NAMES.get(name, f"tt_{name.lower()}")] = fields
    return found


def calls_of_rust():
    found = {}
    for name, words, result in re.findall(r"pub fn (tt_\w+)\((.*?)\) -> (\w+);", RUST, re.S):
        words = [(field, of_rust(kind)) for field, kind in re.findall(r"(\w+): ([^,]+)", words)]
        found[name] = [*words, ("", of_rust(result))]
    return found


def differences(binding, wanted, got):
    """Returns what a binding declares otherwise than the header, and that it declares nothing."""
    found = [] if got else [f"{binding}: nothing is declared"]
    other = [it for it in got if got[it] != wanted.get(it)]
    return found + [f"{binding}: {it} has {got[it]}, and not {wanted.get(it)}" for it in other]


# Where the version stands beside the header: as a text, its first two parts, and as a number.
VERSIONS = {"bindings/python/pyproject.toml": r'^version = "(.*)"', "Cargo.toml": r'^version = "(.*)"',
            "Cargo.lock": r'^name = "tt_render"\nversion = "(.*)"', "tt_render.1": r'"tt_render (.*?)"',
            "crates/tt_program_commands/src/lib.rt": r'\.version\("(.*)"\)', "SECURITY.md": r"^Version (\S+) ",
            "CHANGELOG.md": r"^## (\d\S*) - ", "debian/changelog": r"^tt-render \((.*)\)"}
SHORT = {"docs/C_LIBRARY.md": r"find_package\(tt_render (\S+)"}
NUMBERS = {"include/tt_render.h": r"#define TT_RENDER_VERSION (\d+)",
           "crates/tt_c/src/lib.rt": r"fn tt_version\(\) -> u32\s+ensures \{ result ≡ (\d+)"}
# Where the name of the shared library stands.
SONAMES = ("dist/install", "include/tt_render.h", "docs/C_LIBRARY.md", "bindings/python/backend.py",
           "bindings/python/tt_render/_library.py", "debian/libtt-render2.symbols", "tests/package/run")


def read(path):
    """Returns the text of a file of the repository."""
    return (ROOT / path).read_text(encoding="utf-8")


def others(places, wanted):
    """Returns the places that have another version."""
    found = {it: re.search(pattern, read(it), re.M) for it, pattern in places.items()}
    return [f"versions: {it} has {got and got[1]}, and not {wanted}" for it, got in found.items()
            if not got or got[1] != wanted]


def versions():
    """Returns the places whose version is not that of the header, or whose soname is not that of the installation."""
    text = re.search(r'#define TT_RENDER_VERSION_TEXT "(.*)"', HEADER)[1]
    first, second, third = map(int, text.split("."))
    soname = re.search(r"^readonly SONAME=(.*)", read("dist/install"), re.M)[1]
    named = {it: set(re.findall(r"libtt_render\.so\.\d+", read(it))) for it in SONAMES}
    wrong = others(VERSIONS, text) + others(SHORT, f"{first}.{second}")
    wrong += others(NUMBERS, str(10000 * first + 100 * second + third))
    other = {it: got for it, got in named.items() if got != {soname}}
    return wrong + [f"soname: {it} has {' '.join(got)}, and not {soname}" for it, got in other.items()]


structs = structs_of_header()
faults = differences("python", structs, structs_of_python()) + differences("rust", structs, structs_of_rust())
faults += differences("rust", calls_of_header(), calls_of_rust()) + versions()
print("\n".join(faults), end="\n" if faults else "")
