"""The functions of a crate with a body: where they are, and what the prover calls them."""
import re

from texts import body_of, function_headers


class Function:
    """A function: its file, its first line, its body's lines, its path as the prover prints it, and its proofs' folder.

    Lines are counted from 0. The body's end is the line of its closing brace.
    """

    def __init__(self, file, lines, names, crate):
        self.file = file
        self.first, self.body, self.last = lines
        self.path = "::".join([crate, *names])
        self.proofs = "proofs/" + "/".join(names) + "/"

    def has(self, file, at):
        """Returns whether a line is one of the function's."""
        return file == self.file and self.first <= at <= self.last

    def has_in_body(self, file, at):
        """Returns whether a line is one of the function's body."""
        return file == self.file and self.body <= at < self.last


def module_of(file):
    """Returns the names of a file's module, from the crate's root on."""
    return [] if file in ("src/lib.rt", "src/main.rt") else file[len("src/") : -len(".rt")].split("/")


def files_of_types(files):
    """Returns the files that define a type or trait of each name."""
    found = {}
    for file, lines in files.items():
        for name in re.findall(r"^(?:pub(?:\([a-z]+\))? )?(?:struct|enum|trait) (\w+)", "\n".join(lines), re.M):
            found.setdefault(name, []).append(file)
    return found


def impl_of(line):
    """Returns of the first line of an impl the type's name, and the trait's with its arguments in one word."""
    found = re.match(r"impl(?:<[^>]*>)? (?:(?:\w+::)*(\w+(?:<.*>)?) for )?(?:\w+::)*(\w+)", line)
    return found and (found[2], re.sub(r"\W", "", found[1] or ""))


def impls_of(lines):
    """Returns for each line the impl that it stands in, or None."""
    found, inside = [], None
    for line in lines:
        inside = impl_of(line) or (None if line.startswith("}") else inside)
        found.append(inside)
    return found


def functions_of(crate, files):
    """Returns the functions of all files of a crate, given as lists of lines.

    The prover names a method by the module of its type, and not by the file of the impl. A trait's method it names by
    type, trait and the trait's arguments in one word: `From<JobFault> for DrawFault` is DrawFaultFromJobFault.
    """
    found, defined = [], files_of_types(files)
    for file, lines in files.items():
        impls = impls_of(lines)
        for at, indent, name in function_headers(lines):
            body = body_of(lines, at, indent)
            if not body:
                continue
            of_type = impls[at] if indent else None
            homes = defined.get(of_type[0], [file]) if of_type else [file]
            module = module_of(file if file in homes else homes[0])
            names = [*module, *(["".join(of_type)] if of_type else []), name]
            found.append(Function(file, (at, *body), names, crate))
    return found
