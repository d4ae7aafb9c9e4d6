"""The call graph of the crates, read from the sources, and the chains of calls in it.

A name is looked up as the compiler would, as far as the text tells: by the file's own functions and imports, by the
crates that crates.txt lists, and by the types of parameters and fields. Where the text does not tell the type before a
method's name, each method of that name counts, in the crate or below it.
"""
import re
from collections import defaultdict, deque

# Methods of the standard library, which are called on values whose type the text does not tell.
COMMON = set(
    """all any as_ref as_slice bytes chain chars clone cmp collect copied copy count dedup end entry enumerate eq err
    extend filter find first flat_map flatten fold for_each from get get_mut insert into is_empty is_some iter iter_mut
    last len map map_err max min ne next ok or_else pop position push read replace rev skip split start sum take
    to_string truncate unwrap_or windows write zip""".split()
)
CALL = re.compile(
    r"(?P<dot>\.\s*)?(?P<path>\b(?:\w+(?:::<[^()]*?>)?::)*)(?P<name>[a-z_]\w*)(?P<macro>!)?(?:::<[^()]*?>)?\("
)


class Graph:
    """The functions of all crates, and which may call which."""

    def __init__(self, files, uses):
        self.files = {it.path: it for it in files}
        self.below = {crate: self.closure(crate, uses) for crate in uses}
        self.free, self.methods, self.types = defaultdict(list), defaultdict(list), defaultdict(list)
        for file in files:
            for it in file.functions:
                (self.methods if it.owner else self.free)[it.name].append(it)
            for it in file.types:
                self.types[it.name].append(it)
        self.functions = [it for file in files for it in file.functions]
        self.places = {id(it): place for place, it in enumerate(self.functions)}
        # The locals whose types are being looked for: one that is bound to itself has no end.
        self.open = set()

    @staticmethod
    def closure(crate, uses):
        """Returns a crate and all that it stands on."""
        found, todo = {crate}, [crate]
        while todo:
            for it in uses.get(todo.pop(), ()):
                if it not in found:
                    found.add(it)
                    todo.append(it)
        return found

    def types_in(self, words, home):
        """Returns the own types that a text of a function or a type names, as far as its crate can name them."""
        imports, below, found = self.files[home.file].imports, self.below[home.crate], []
        for name in re.findall(r"\b[A-Z]\w*", words):
            place = imports.get(name, (home.crate, name))
            seen = [it for it in self.types.get(place[-1], ()) if it.crate in below]
            crate = place[0] if place[0].startswith("tt_") else home.crate
            # Where none is of that crate, the crate gives on a type from below.
            found += [it for it in seen if it.crate == crate] or seen
        return found

    def type_before(self, function, chain):
        """Returns the types of a chain of fields, as `self.fitter`, or None where the text does not tell."""
        head, *rest = chain
        if head == "self":
            kinds = [it for it in self.types.get(function.owner, ()) if it.crate == function.crate]
        else:
            known = dict(function.parameters)
            kinds = self.types_in(known[head], function) if head in known else self.type_let(function, head)
            if kinds is None:
                return None
        for name in rest:
            kinds = [other for it in kinds for other in self.types_in(it.fields.get(name, ""), it)]
        return kinds

    def type_let(self, function, name):
        """Returns the types of a local that is bound to what a call gives, or None where the text does not tell."""
        let = re.search(rf"\blet (?:mut )?{name}(?:: ([^=;]*))? = (?:&(?:mut )?)?([\w:<>.'\s]*?)(\w+)\(", function.body)
        if not let or (id(function), name) in self.open:
            return None
        if let[1]:
            return self.types_in(let[1], function)
        before = "".join(let[2].split())
        self.open.add((id(function), name))
        look = self.by_method if before.endswith(".") else self.by_path
        found = look(function, before.removesuffix("."), let[3])
        self.open.remove((id(function), name))
        return [it for one in found for it in self.given_by(one)] if found else None

    def given_by(self, function):
        """Returns the own types that a function gives."""
        kinds = self.types_in(function.gives, function)
        if "Self" in function.gives:
            kinds += [it for it in self.types.get(function.owner, ()) if it.crate == function.crate]
        return kinds

    def by_method(self, function, before, name):
        """Returns the methods that a call with a dot may mean."""
        chain = re.search(r"(?:^|[^\w.)\]?])((?:\w+\.)*\w+)$", before)
        kinds = self.type_before(function, chain[1].split(".")) if chain else None
        methods = [it for it in self.methods.get(name, ()) if it.crate in self.below[function.crate]]
        if kinds is None:
            return [] if name in COMMON else methods
        owners = {(it.crate, it.name) for it in kinds}
        return [it for it in methods if (it.crate, it.owner) in owners]

    def by_path(self, function, path, name):
        """Returns the functions that a call by a name or a path may mean."""
        words = [it for it in re.sub(r"<[^()]*?>", "", path).split("::") if it]
        imports = self.files[function.file].imports
        if words and words[0] in imports:
            words = [*imports[words[0]], *words[1:]]
        elif not words and name in imports:
            words, name = list(imports[name][:-1]), imports[name][-1]
        elif not words:
            return [it for it in self.free.get(name, ()) if it.file == function.file]
        last = words[-1]
        if last == "Self" or last[0].isupper():
            last = function.owner if last == "Self" else last
            below = self.below[function.crate]
            return [it for it in self.methods.get(name, ()) if it.owner == last and it.crate in below]
        if words[0].startswith("tt_"):
            found = [it for it in self.free.get(name, ()) if it.crate in self.below.get(words[0], ())]
            return [it for it in found if it.crate == words[0]] or found
        found = [it for it in self.free.get(name, ()) if it.crate == function.crate]
        return [it for it in found if it.file.endswith(f"/{last}.rt")] or (found if last in ("crate", "super") else [])

    def meant_by(self, function, call):
        """Returns the functions that a call in a function's body may mean."""
        before = function.body[: call.start()]
        if call["macro"] or before.rstrip().endswith("fn"):
            return []
        if call["dot"]:
            return self.by_method(function, "".join(before.split()), call["name"])
        return self.by_path(function, call["path"], call["name"])

    def called_by(self, function):
        """Returns the functions that a function may call."""
        return [it for call in CALL.finditer(function.body) for it in self.meant_by(function, call)]

    def edges(self):
        """Returns for each function those that it may call, by their places in the list of functions."""
        return [sorted({self.places[id(it)] for it in self.called_by(one)}) for one in self.functions]

    def chain(self, stations):
        """Returns the shortest chain of calls through some functions in order.

        Where none leads from one of them to the next, the chain ends there.
        """
        edges, whole = self.edges(), stations[:1]
        for begin, end in zip(stations, stations[1:]):
            part = self.way(edges, self.places[id(begin)], self.places[id(end)])
            if not part:
                break
            whole = [*whole, *(self.functions[it] for it in part[1:])]
        return whole

    @staticmethod
    def way(edges, start, goal):
        """Returns the places of the functions on the shortest chain from one place to another."""
        before, todo = {start: None}, deque([start])
        while todo and goal not in before:
            at = todo.popleft()
            for it in edges[at]:
                if it not in before:
                    before[it] = at
                    todo.append(it)
        found, at = [], goal if goal in before else None
        while at is not None:
            found.append(at)
            at = before[at]
        return found[::-1]
