"""Definitions, contracts and types of this repository, and the names that they use. tests/gate/doubt uses this module. A
variable hides a definition of the same name within the variable's scope. A record field hides a definition of the same name in
the later fields of the record."""
import functools
import os
import re

from support import TOP, content, crate_files

RUST_USE = re.compile(r"^(?:pub )?use (\w+)::(?:\w+::)*(?:\{([^}]*)\}|(\w+));", re.MULTILINE)
USE = re.compile(r"^\s*(?:ghost )?(?:pub )?use Rattle\.([\w.]+?)(?:\.\{(.*?)\}| as (\w+));?$", re.MULTILINE)
HEAD = re.compile(r"\s*(?:(?:abbrev|unfoldable|opaque|pub) )*(?:(data|record) )?([^\s:({]+)(?(1)| :)")
IDENTIFIER = re.compile(r"(?<![\w.])[A-Za-z_]\w*(?:\.[A-Za-z_]\w*)*")
TOKEN = re.compile(rf"λ [\w ]+\.|[({{](?:0 )?(?:\w+ )+:|\blet \w+|[(){{}}]|{IDENTIFIER.pattern}")
FIELD_TOKEN = re.compile(rf"\n\s+(?:pub )?\w+ :|{TOKEN.pattern}")


def imports_of(text):
    """Returns the module and the original name of each imported name. The original name of a module is None."""
    found = {}
    for module, names, alias in USE.findall(text):
        for name in filter(None, (it.strip() for it in names.split(","))):
            there, _, here = name.partition(" as ")
            found[here or there] = (module, there)
        if alias:
            found[alias] = (module, None)
    return found


def pieces(text):
    """Yields each definition of a file in order: its name, the other names that it owns, and its text. A `data` definition owns
    its constructors. A mutual definition is listed under its first name, and owns its other names. A record does not own its
    fields."""
    for block in re.split(r"\n[ \t]*\n", text):
        lines = [it for it in block.split("\n") if it.strip() and not re.match(r"\s*(-- ----|use |module )", it)]
        code = [it for it in lines if not it.lstrip().startswith("--")]
        is_mutual = bool(code) and code[0].strip() == "abbrev mutual"
        heads = [it for it in map(HEAD.match, code[1:] if is_mutual else code[:1]) if it]
        if not heads:
            continue
        others = [it[2] for it in heads[1:]]
        if heads[0][1] == "data":
            others += re.findall(r"^\s+(?:pub )?([\w◌]+) :", "\n".join(code[1:]), re.MULTILINE)
        yield heads[0][2], others, "\n".join(lines)


class Specs:
    """The definitions of the repository, and the files that define types and limits."""

    def __init__(self):
        self.texts, self.names, self.owners, self.imports, self.types = {}, {}, {}, {}, {}
        for path in crate_files("specs", "antt"):
            text = content(path)
            self.imports[path] = imports_of(text)
            for name, others, piece in pieces(text):
                self.texts[path, name] = piece
                self.names[path, name] = [name, *others]
                self.owners[path, name] = (path, name)
                for it in others:
                    self.owners.setdefault((path, it), (path, name))
        for path in crate_files("src", "rt"):
            crate = path.split("/")[1]
            for is_public, name in re.findall(r"^(pub )?(?:struct|enum|const) (\w+)", content(path), re.MULTILINE):
                if is_public or (crate, name) not in self.types:
                    self.types[crate, name] = path

    def owner(self, path, word):
        """Returns the definition, type or limit that a word in a file means, the full name of a word of the kit, or None."""
        word, *rest = word.split(".")
        if (path, word) in self.owners:
            return self.owners[path, word]
        if word not in self.imports[path]:
            return None
        module, name = self.imports[path][word]
        crate, _, within = module.partition(".specs.")
        if not os.path.isdir(os.path.join(TOP, "crates", crate)):
            return ("kit", f"{module}.{name or '.'.join(rest)}")
        if within.startswith("declared."):
            kind = re.sub(r"\.(TheVariants|TheConstants)$", "", within).split(".")[-1]
            name = name if within.endswith("TheConstants") else kind
            return (self.types[crate, name], name) if (crate, name) in self.types else None
        return self.owner(f"crates/{crate}/specs/{within.replace('.', '/')}.antt", name)

    def text(self, path, name):
        """Returns the text of a definition, a type, a limit or a contract; None if the file lacks it."""
        if path.endswith(".antt"):
            return self.texts.get((path, name))
        return of_code(path, name) if os.path.exists(os.path.join(TOP, path)) else None

    def type_owner(self, path, word):
        """Returns the type that a word in Rattle code means, or None if this repository does not define it."""
        crates = {it: crate for crate, names, name in RUST_USE.findall(content(path)) for it in IDENTIFIER.findall(names) + [name]}
        crate = crates.get(word, "crate").replace("crate", path.split("/")[1])
        return (self.types[crate, word], word) if (crate, word) in self.types else None


def of_code(path, name):
    """Returns the text of a type with its view, of a limit or of a contract, with its comment, or None."""
    lines = content(path).split("\n")
    head = re.compile(rf"\s*pub fn {name.split('::')[-1]}\b|(?:pub )?(?:struct|enum|const) {name}\b")
    index = next((n for n, it in enumerate(lines) if head.match(it)), None)
    if index is None:
        return None
    first = last = index
    while first > 0 and re.match(r"\s*(///|#\[)", lines[first - 1]):
        first -= 1
    is_function = " fn " in lines[index]
    while not re.match(r"\s*\{\}?$" if is_function else r"\}|.*;$|.*\{\}$", lines[last]):
        last += 1
    model = re.search(rf"^impl(?:<.*?>)? Model for {name}\b.*?^\}}", content(path), re.MULTILINE | re.DOTALL)
    view = re.findall(r"^ *ghost (?:Value|view) = .*", model[0] if model else "", re.MULTILINE)
    return "\n".join([*lines[first : last + (not is_function)], *view])


def free_identifiers(code, bound, is_record=False):
    """Yields the free identifiers of a clause or a record. λ, let and (x : T) bind a name up to the end of the surrounding
    brackets. A record field binds its name in the later fields."""
    scopes, opened, lets, field = [set(bound)], [], [], None
    for token in (FIELD_TOKEN if is_record else TOKEN).findall(re.sub(r"([{;]\s*)\w+ = ", r"\1", code)):
        names = re.findall(r"\w+", token)
        if token.startswith("\n"):
            scopes[-1] |= {field}
            field = names[-1]
        elif token.startswith("λ "):
            scopes[-1] |= set(names)
        elif token.startswith("let "):
            lets.append(names[-1])
        elif token == "in":
            scopes[-1].add(lets.pop())
        elif token[0] in "({":
            opened.append(names)
            scopes.append(set(scopes[-1]))
        elif token in ")}":
            scopes.pop()
            scopes[-1] |= set(opened.pop())
        elif names[0] not in scopes[-1]:
            yield token


def without_comments(text):
    return "\n".join(it.split(" -- ")[0] for it in text.split("\n") if not it.lstrip().startswith(("--", "///")))


def identifiers_of_definition(specs, path, name):
    """Yields the free identifiers of a definition. In a pattern only constructors are free; all others are bound."""
    code = without_comments(specs.texts[path, name])
    heads = "|".join(map(re.escape, specs.names[path, name]))
    indent = re.search(r"^( *)(?!abbrev mutual)\S", code, re.MULTILINE)[1]
    first, *clauses = re.split(rf"^(?={indent}(?:{heads})\s)", code, flags=re.MULTILINE)
    yield from free_identifiers(first, set(), re.match(r" *(?:pub )?record ", first) is not None)
    for clause in clauses:
        pattern, body = re.split(r" =(?=\s)", clause, maxsplit=1)
        identifiers = IDENTIFIER.findall(pattern)
        constructors = [it for it in identifiers if it in specs.imports[path] or specs.owners.get((path, it), ("", it))[1] != it]
        yield from constructors
        yield from free_identifiers(body, set(identifiers) - set(constructors))


def identifiers_of_contract(specs, path, name):
    """Returns the free identifiers of a contract."""
    specs.imports.setdefault(path, imports_of(content(path)))
    contract = "\n".join(re.findall(r"(?:ensures|requires)[^{]*\{.*", of_code(path, name), re.DOTALL))
    return free_identifiers(without_comments(contract), set())


def type_names(specs, path, name):
    """Yields the types of a type's fields, and the names that its view uses."""
    code = without_comments(specs.text(path, name))
    for field in re.findall(r"^ +(?:pub )?\w+(?:: |\()(.*)", code, re.MULTILINE):
        yield from (specs.type_owner(path, it) for it in IDENTIFIER.findall(field))
    specs.imports.setdefault(path, imports_of(content(path)))
    for view in re.findall(r"^ *ghost \w+ = (.*)", code, re.MULTILINE):
        yield from (specs.owner(path, it) for it in free_identifiers(view, set()))


@functools.lru_cache(maxsize=None)
def needs(specs, path, name):
    """Returns the names that a contract, a type or a definition uses, in order of use."""
    if path.endswith(".rt") and not is_contract(specs, path, name):
        owners = type_names(specs, path, name)
    else:
        identifiers = (identifiers_of_contract if path.endswith(".rt") else identifiers_of_definition)(specs, path, name)
        owners = (specs.owner(path, it) for it in identifiers)
    return [it for it in dict.fromkeys(owners) if it and it != (path, name)]


def closure(specs, root, stops=()):
    """Returns the names that a contract or a definition depends on, except the kit's. Each name is listed after the names that
    it depends on. Names that only names in `stops` depend on are left out."""
    order, seen = [], {root}

    def follow(item):
        for owner in needs(specs, *item):
            if owner not in seen and owner[0] != "kit":
                seen.add(owner)
                if owner not in stops:
                    follow(owner)
                order.append(owner)

    follow(root)
    return order


def is_contract(specs, path, name):
    return path.endswith(".rt") and re.search(r"^\s*pub fn ", specs.text(path, name) or "", re.MULTILINE) is not None


def is_law(specs, path, name):
    """Returns whether a function does nothing: it returns nothing and has no argument to change."""
    head = re.split(r"\n\s*(?:requires|ensures)\b", without_comments(specs.text(path, name)))[0]
    return "->" not in head and "&mut" not in head

