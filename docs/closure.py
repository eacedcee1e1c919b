"""What a law stands on: the definitions that its clause names, and those that they name in turn.

A definition is one of the specs/*.antt files, or a struct or an enum of src/*.rt, which proofs see as a record. A type that
proofs see as something else, by `impl Model`, is what its view is: a number, a list of octets or a record of specs/.
The words of the standard library and of the kit aren't followed.
"""
import functools
import pathlib
import re
from typing import NamedTuple

ROOT = pathlib.Path(__file__).resolve().parent.parent
WORD = re.compile(r"(?<![\w.'])[^\W\d]\w*")
USE = re.compile(r"^(?:ghost )?use Rattle\.([\w.]+)\.\{([^}]*)\}", re.MULTILINE)
HEAD = re.compile(r"^(?:abbrev |unfoldable )?(?:pub )?(?:record )?([^\W\d]\w*) (?=[:(])")
EQUATION = re.compile(r"^((?!use\b)[^\W\d]\w*) .*= ?")
DECLARED = re.compile(
    r"^pub(?:\(crate\))? (?P<kind>struct|enum|type) (?P<name>\w+)[^;{]*(?:;|\{.*?^\})", re.MULTILINE | re.DOTALL)
RUST_USE = re.compile(r"^use (\w+)(?:::\w+)*::(?:\{([^}]*)\}|(\w+));", re.MULTILINE)


class Place(NamedTuple):
    """A definition: its file from the top of the repository, and its name there."""
    path: str
    name: str


@functools.cache
def text_of(path):
    return (ROOT / path).read_text()


def renamed(names):
    """The names that a list `A, B as C` brings in, by what they are called where they come from."""
    for name in filter(None, (name.strip() for name in names.split(","))):
        theirs, _, ours = name.partition(" as ")
        yield ours or theirs, theirs


# ---- definitions of specs/

@functools.cache
def definitions_in(path):
    """The texts of a file's definitions, by name, without comments."""
    texts, name = {}, None
    for line in text_of(path).splitlines():
        line = re.sub(r"(^|\s)--.*", "", line)
        if line and not line[0].isspace():
            head = HEAD.match(line) or EQUATION.match(line)
            name = head and head[1]
        if name and line.strip():
            texts[name] = texts.get(name, "") + line + "\n"
    return texts


def lines_of(place):
    """How many lines a definition of specs/ has."""
    return definitions_in(place.path)[place.name].count("\n")


def module_file(module):
    """The file of `CRATE.specs.A`."""
    crate, _, name = module.partition(".specs.")
    return f"crates/{crate}/specs/{name.replace('.', '/')}.antt"


def declared_type(module):
    """The crate and the name of the Rust type that `CRATE.specs.declared.FILE.TYPE` stands for."""
    crate, _, name = module.partition(".specs.declared.")
    return crate, next(part for part in name.split(".") if part[0].isupper())


@functools.cache
def imports_of(text):
    """What the `use` lines of a text bring in: places of specs/ by name, or Rust types."""
    places = {}
    for module, names in USE.findall(text):
        for ours, theirs in renamed(names):
            if not (ROOT / "crates" / module.partition(".")[0]).is_dir():
                continue
            if ".specs.declared." in module:
                places[ours] = type_of(*declared_type(module))
            elif ".specs." in module:
                places[ours] = [Place(module_file(module), theirs)]
    return places


def spec_names(place):
    """The places that a definition of specs/ names."""
    definitions = definitions_in(place.path)
    scope = {name: [Place(place.path, name)] for name in definitions} | imports_of(text_of(place.path))
    for word in WORD.findall(definitions.get(place.name, "")):
        yield from scope.get(word, [])


# ---- types of src/

@functools.cache
def declarations_of(crate):
    """The structs, enums and aliases of a crate: where each stands and its text."""
    found = {}
    for file in sorted((ROOT / "crates" / crate / "src").glob("**/*.rt")):
        for match in DECLARED.finditer(file.read_text()):
            found[match["name"]] = (str(file.relative_to(ROOT)), match[0])
    return found


def type_of(crate, name):
    """What proofs see of a type: itself, or what its view is."""
    if name not in declarations_of(crate):
        return []
    path, text = declarations_of(crate)[name]
    if DECLARED.match(text)["kind"] == "type":
        return list(rust_names(Place(path, name)))
    model = re.search(rf"^impl(?:<[^>]*>)? Model for {name}\b.*?^\}}", text_of(path), re.MULTILINE | re.DOTALL)
    if not model:
        return [Place(path, name)]
    inner = re.sub(r"^ +", "", model[0], flags=re.MULTILINE)
    value = re.search(r"ghost Value = \{(.*?)\};", inner, re.DOTALL)[1]
    return [place for word in WORD.findall(value) for place in imports_of(inner).get(word, [])]


def rust_names(place):
    """The places that a struct or an enum names."""
    crate = place.path.split("/")[1]
    brought = {name: crate for name in declarations_of(crate)}
    for source, several, one in RUST_USE.findall(text_of(place.path)):
        for ours, theirs in renamed(several or one):
            if source not in ("crate", "std"):
                brought[ours] = source
    text = re.sub(r"//.*", "", declarations_of(crate)[place.name][1])
    for word in re.findall(r"(?<![\w'])[A-Z]\w*", text):
        if word in brought and word != place.name:
            yield from type_of(brought[word], word)


# ---- closures

def names_of(place):
    return spec_names(place) if place.path.endswith(".antt") else rust_names(place)


def closure(roots, but=()):
    """The roots, all that they name, and what that names, but for some that aren't followed."""
    found, left = set(), list(roots)
    while left:
        place = left.pop()
        if place not in found and place not in but:
            found.add(place)
            left += names_of(place)
    return found


def named_by_clause(path, function, clause):
    """The places that a clause of a function names, by the `ghost use` lines of its file."""
    text = text_of(path)
    body = re.search(rf"^pub fn {function}\(.*?^\{{", text, re.MULTILINE | re.DOTALL)[0]
    said = re.search(rf"ensures {clause} \{{(.*?)\}}\n", body, re.DOTALL)[1]
    return [place for word in WORD.findall(said) for place in imports_of(text).get(word, [])]
