"""What is counted of the sources. Each count is a number with the places behind it, the worst first."""
import re
import statistics
from collections import Counter, defaultdict

import calls
import sources

CLAUSES, PARAMETERS, FUNCTIONS, LINES = 12, 7, 100, 400

# The stations of the way to MDRP, by the beginning of the crate's name and by the function's name. Shorter ways lead
# past them, by one text and by the font's first programs; the way of a line's simple glyph is the one that is counted.
WAY = (
    ("tt_program_decisions", "perform"),
    ("tt_render", "draw_lines"),
    ("tt_fit", "simple"),
    ("tt_fit", "hinted"),
    ("tt_exec_points", "on_one"),
    ("tt_points", "mdrp"),
)
# This station may be missing: then a simple glyph has no function of its own.
MAY_BE_MISSING = "simple"
# With this in its docstring a function may forward: the reason stands there.
EXCUSE = "(for the prover)"
# An argument that is a parameter or a field, borrowed or not.
PLAIN = r"(?:&(?:mut )?)?\*?[a-z_]\w*(?:\.\w+)*"


class Missing(Exception):
    """A station of the way is not there, or there are several."""


def is_product(crate):
    """Returns whether a crate is one of the product, and not one for tests alone."""
    return not crate.startswith("tt_test_")


def above(functions, most, size):
    """Returns the functions whose size is above a limit, the largest first."""
    found = sorted(((size(it), it) for it in functions if size(it) > most), key=lambda pair: -pair[0])
    return [f"{number} {it}" for number, it in found]


def importable_twice(files, uses):
    """Returns the names of types of which a file can import two, or can import one and has one."""
    given = {it.crate: it.gives for it in files if it.path.endswith("/src/lib.rt")}
    types, found = [kind for it in files for kind in it.types], {}
    outside = defaultdict(set)
    for kind in types:
        module = kind.file.rpartition("/")[2].removesuffix(".rt")
        if kind.visible == "pub" and given.get(kind.crate, set()) & {kind.name, module}:
            outside[kind.crate].add((kind.name, str(kind)))
    for file in files:
        own = {(it.name, str(it)) for it in types if it.crate == file.crate and (it.visible or it.file == file.path)}
        seen = own.union(*(outside[it] for it in uses.get(file.crate, ())))
        for name, number in Counter(name for name, _ in seen).items():
            if number > 1:
                found.setdefault(name, file.path)
    return sorted(f"{name}, in {path} for one" for name, path in found.items())


def only_call(body):
    """Returns of the one call that a body is what is before its name and its arguments, or None.

    The call's result may be in an Ok, or handed on by a question mark.
    """
    text = " ".join(body.split())
    text = re.sub(r"^Ok\((.*)\?\)$", r"\1", text)
    text = re.sub(r"\?; Ok\(\(\)\)$|;$|\?$", "", text)
    call = re.match(r"((?:\w+\.)*)(?:\w+::)*[a-z_]\w*\(", text)
    if not call or sources.close_of(text, call.end() - 1) != len(text) - 1:
        return None
    return call[1], sources.parts_of(text[call.end() : -1])


def is_hop(graph, function):
    """Returns whether a function's body is one call of a function of ours, with its own parameters and no more."""
    parameters = {name for name, _ in function.parameters} - {"self"}
    found = only_call(function.body)
    if not found or not parameters or function.is_export or EXCUSE in function.comment:
        return False
    before, arguments = found
    if not all(re.fullmatch(PLAIN, it) for it in arguments) or not graph.called_by(function):
        return False
    used = {re.match(r"\W*(?:mut )?(\w+)", it)[1] for it in [*arguments, *([before] if before else [])]}
    return parameters <= used and used <= parameters | {"self"}


def refusals(graph, files):
    """Returns our types with which something is refused: a Result has them as its error, or they are named Fault."""
    found = {(it.name, str(it)) for file in files for it in file.types if it.name.endswith("Fault")}
    for function in (it for file in files for it in file.functions):
        result = re.search(r"\bResult<(.*)>", function.gives)
        for error in sources.parts_of(result[1])[1:] if result else []:
            found.update((it.name, str(it)) for it in graph.types_in(error, function))
    return sorted(f"{name} {place}" for name, place in found)


def ratio_of(functions):
    """Returns how many lines of signatures and clauses there are for a line of a body, to two decimals."""
    return round(sum(it.head for it in functions) / max(sum(it.lines for it in functions), 1), 2)


def way_to_mdrp(graph):
    """Returns the functions on the way from a request to MDRP."""
    stations = []
    for crate, name in WAY:
        found = [it for it in graph.functions if it.name == name and it.crate.startswith(crate)]
        found = [it for it in found if it.crate == crate] or found
        if not found and name == MAY_BE_MISSING:
            continue
        if len(found) != 1:
            raise Missing(f"{len(found)} functions are named {name} in {crate}: put the stations right in counting.py")
        stations += found
    chain = graph.chain(stations)
    if chain[-1] is not stations[-1]:
        raise Missing(f"no chain of calls leads on from {chain[-1]}: put the stations right in counting.py")
    return chain


def all_counts(files, uses):
    """Returns all counts by their names, each with its places."""
    functions = [it for file in files for it in file.functions]
    product = [it for it in files if is_product(it.crate)]
    graph, own = calls.Graph(files, uses), [it for file in product for it in file.functions]
    inner = [it for it in functions if not it.is_export]
    longest = above(functions, 0, lambda it: it.lines)
    types = defaultdict(list)
    for kind in (kind for file in product for kind in file.types):
        types[kind.name].append(str(kind))
    twice = [f"{name} {' '.join(places)}" for name, places in sorted(types.items()) if len(places) > 1]
    crates = Counter(it.crate for it in functions)
    long_files = sorted((-it.lines, it.path) for it in files if it.lines > LINES)
    lists = {
        "clauses": above(inner, CLAUSES, lambda it: it.clauses),
        "parameters": above(inner, PARAMETERS, lambda it: len(it.parameters)),
        "types_twice": twice,
        "imported_twice": importable_twice(product, uses),
        "crates": [f"{number} {crate}" for crate, number in crates.most_common() if number > FUNCTIONS],
        "files": [f"{-lines} {path}" for lines, path in long_files],
        "depth": [str(it) for it in way_to_mdrp(graph)],
        "hops": [str(it) for it in own if is_hop(graph, it)],
        "refusals": refusals(graph, product),
        "conversions": [f"{it.path} impl {name}" for it in product for name in it.conversions],
    }
    numbers = {
        "functions": len(functions),
        "head_lines": sum(it.head for it in functions),
        "body_lines": sum(it.lines for it in functions),
        "median_body": statistics.median_high(it.lines for it in functions),
        "longest_body": max(it.lines for it in functions),
        "head_to_body_of_product": ratio_of(own),
        "head_to_body": ratio_of(functions),
        **{name: len(places) for name, places in lists.items()},
    }
    return numbers, {**lists, "longest_body": longest[:10]}
