"""Tries the counts on small texts, of which they are counted by hand."""
import common
import counting
import sources

LOWER = """\
//! A crate below.
mod inner;
pub mod laws;

pub use inner::{Cut, halved};

/// A fault, as `fn none() {` of a comment is none.
pub enum LowFault {
    Low = 1,
}

impl From<Cut> for LowFault {
    fn from(_: Cut) -> Self {
        LowFault::Low
    }
}
"""
INNER = """\
/// A type that other crates may name.
pub struct Cut {
    pub at: u32,
    pub(crate) side: Side,
}

pub(crate) struct Side;

#[derive(Clone)]
struct Own(u8);

impl Cut {
    /// Forwards.
    pub(crate) fn half(&self, by: u32) -> Result<u32, LowFault>
        ghost most: { List ℕ }
        requires { by < 10 }
        ensures exact { result ≡ { x | x } }
        ensures
            value { true }
    {
        Ok(halved(self.at, by)?)
    }

    /// Forwards (for the prover): a choice joins here.
    fn again(&self, by: u32) -> Result<u32, LowFault> {
        halved(self.at, by)
    }

    fn len(&self) -> u32 {
        self.side.len()
    }
}

impl Side {
    fn len(&self) -> u32 {
        0
    }
}

pub fn halved(a: u32, by: u32) -> Result<u32, LowFault> {
    let text = "fn a() { } // {";
    let quote = '{';
    // fn not_here() {
    Ok(a / by)
}
"""
UPPER = """\
use tt_low::{Cut as Slice, halved};

pub trait Half {
    fn half(&self) -> u32;
    fn whole(&self) -> u32 {
        self.half() + self.half()
    }
}

pub struct LowFault;

/// A type of the same name as one that may be imported.
struct Cut;

#[unsafe(no_mangle)]
pub extern "C" fn tt_half(
    cut: &Slice,
    by: u32,
    f: fn(u32, u32) -> u32,
) -> u32
    ensures { result ≡ 1 }
{
    match Slice::half(cut, by) {
        Ok(n) => n,
        Err(_) => cut.half(by).unwrap_or(f(by, by)),
    }
}

pub fn moved(cut: &Slice, by: u32) -> Result<u32, LowFault> {
    let below = cut.half(by)?;
    halved(below, by)
}

fn one() {}
"""


def files():
    """Returns the three texts as files of two crates, and which crate uses which."""
    texts = (("tt_low", "lib", LOWER), ("tt_low", "inner", INNER), ("tt_up", "lib", UPPER))
    read = [sources.read_file(crate, f"crates/{crate}/src/{name}.rt", text) for crate, name, text in texts]
    return read, {"tt_low": [], "tt_up": ["tt_low"]}


def same(name, got, wanted):
    """Counts a case."""
    common.verdict(f"sample {name}", [] if got == wanted else [f"{got!r}, and not {wanted!r}"])


def try_functions(read):
    """Functions, with what stands before their bodies and in them."""
    functions = [it for file in read for it in file.functions]
    names = [f"{it.owner}::{it.name}" if it.owner else it.name for it in functions]
    same(
        "functions",
        names,
        "LowFault::from Cut::half Cut::again Cut::len Side::len halved Half::whole tt_half moved one".split(),
    )
    by_name = dict(zip(names, functions))
    half, export, law = by_name["Cut::half"], by_name["tt_half"], by_name["halved"]
    same("clauses", (half.clauses, export.clauses, law.clauses), (3, 1, 0))
    same("parameters", [it[0] for it in export.parameters], ["cut", "by", "f"])
    same("types of parameters", dict(export.parameters)["f"], "fn(u32, u32) -> u32")
    same("results", (half.gives, by_name["Cut::len"].gives, by_name["one"].gives), ("Result<u32, LowFault>", "u32", ""))
    same("lines of heads", (half.head, export.head, law.head), (6, 6, 0))
    same("lines of bodies", (half.lines, law.lines, by_name["one"].lines), (1, 4, 0))
    same("exports", [it.name for it in functions if it.is_export], ["tt_half"])
    same("comments", by_name["Cut::again"].comment, "Forwards (for the prover): a choice joins here.")
    return by_name


def try_types(read, uses):
    """Types, and which a file can import twice."""
    same("types", [it.name for file in read for it in file.types], "LowFault Cut Side Own Half LowFault Cut".split())
    same("fields", read[1].types[0].fields, {"at": "u32", "side": "Side"})
    twice = [it.split(",")[0] for it in counting.importable_twice(read, uses)]
    # LowFault of tt_low is given by no `pub use`, so that no other crate can import it.
    same("imported twice", twice, ["Cut"])
    same("conversions", [it.conversions for it in read], [["From<Cut> for LowFault"], [], []])


def try_calls(read, uses, by_name):
    """Calls by a path, by an import, by a field's type; chains; hops."""
    graph = counting.calls.Graph(read, uses)

    def called(name):
        return [it.owner + "::" + it.name for it in graph.called_by(by_name[name])]

    same("called by a path and a dot", called("tt_half"), ["Cut::half", "Cut::half"])
    same("called by an import", called("moved"), ["Cut::half", "::halved"])
    same("called by a field", called("Cut::len"), ["Side::len"])
    chain = graph.chain([by_name["moved"], by_name["Cut::half"], by_name["halved"]])
    same("chain", [it.name for it in chain], ["moved", "half", "halved"])
    same("no chain", [it.name for it in graph.chain([by_name["halved"], by_name["moved"]])], ["halved"])
    same("hops", [it.name for it in graph.functions if counting.is_hop(graph, it)], ["half"])
    same("refusals", [it.split()[0] for it in counting.refusals(graph, read)], ["LowFault", "LowFault"])


def try_all():
    """Tries all samples."""
    read, uses = files()
    by_name = try_functions(read)
    try_types(read, uses)
    try_calls(read, uses, by_name)
