"""Configuration files for the tools beside it: read by python3-yaml with the line of each value, joined with what they
include, and written in the YAML that the program reads (docs/reference/yaml.md)."""
import os, re, sys

try:
    import yaml
except ImportError:
    sys.exit("the package python3-yaml is missing: apt-get install python3-yaml")

SECTIONS = ("vlans", "dps", "acls", "routers")


class Scalar(str):
    """A text, a number or another single value; quoted: it is a text whatever it looks like."""

    quoted, file, line = False, "", 0


class Map(dict):
    file, line = "", 0


class List(list):
    file, line = "", 0


def scalar(text, quoted=False, file="", line=0):
    made = Scalar(text)
    made.quoted, made.file, made.line = quoted, file, line
    return made


# ---- reading


def as_written(node):
    """A scalar as it stands in the file."""
    return node.value, bool(node.style)


def tree_of(node, file, plain=as_written, notes=None, depth=0):
    """The tree of a node of python3-yaml. `plain` says what a scalar is; notes takes what was found twice."""
    if depth > 64:
        raise ValueError(f"{file}: more than 64 lists and maps in one another")
    line, more = node.start_mark.line + 1, (file, plain, notes, depth + 1)
    if isinstance(node, yaml.ScalarNode):
        return scalar(*plain(node), file, line)
    if isinstance(node, yaml.SequenceNode):
        made = List(tree_of(it, *more) for it in node.value)
    else:
        made = map_of(node, *more)
    made.file, made.line = file, line
    return made


def map_of(node, file, plain, notes, depth):
    made, merged = Map(), []
    for key, value in node.value:
        if not isinstance(key, yaml.ScalarNode):
            raise ValueError(f"{file}: line {key.start_mark.line + 1}: a key is a list or a map")
        if key.value == "<<" and not key.style and plain is not as_written:
            merged += value.value if isinstance(value, yaml.SequenceNode) else [value]
            continue
        name = scalar(*plain(key), file, key.start_mark.line + 1)
        if name in made and notes is not None:
            notes.append(f"line {name.line}: {name} stands twice in one map; the last is taken")
        made[name] = tree_of(value, file, plain, notes, depth)
    for under in merged:
        for name, value in tree_of(under, file, plain, notes, depth).items():
            made.setdefault(name, value)
    return made


def read(path, plain=as_written, notes=None):
    with open(path, encoding="utf-8") as source:
        return read_text(source.read(), path, plain, notes)


def read_text(text, path, plain=as_written, notes=None):
    try:
        nodes = list(yaml.compose_all(text, Loader=yaml.SafeLoader))
    except yaml.YAMLError as fault:
        raise ValueError(f"{path}: {fault}") from None
    if len(nodes) > 1 and notes is not None:
        notes.append(f"{path} has {len(nodes)} documents; the first is taken")
    tree = tree_of(nodes[0], path, plain, notes) if nodes else Map()
    if not isinstance(tree, Map):
        raise ValueError(f"{path}: the document is no map")
    return tree


def files(path, plain=as_written, notes=None, optional=False, above=()):
    """The trees of a file and of all that it includes, in the order in which they are joined."""
    if optional and not os.path.exists(path):
        return
    if path in above or len(above) > 8:
        raise ValueError(f"{path}: included by itself, or too deep")
    tree = read(path, plain, notes)
    yield tree
    for key, may_lack in (("include", False), ("include-optional", True)):
        for name in tree.get(key) or []:
            yield from files(os.path.join(os.path.dirname(path), name), plain, notes, may_lack, (*above, path))


def joined(path, plain=as_written, notes=None):
    """The tree that a file and its includes make together."""
    made = Map()
    for tree in files(path, plain, notes):
        for key, value in tree.items():
            if key in SECTIONS and isinstance(value, Map):
                into = made.get(key)
                if not isinstance(into, Map):
                    into = made[key] = Map()
                    into.file, into.line = value.file, value.line
                for name, one in value.items():
                    if name in into and notes is not None:
                        notes.append(f"{key}.{name} stands in two files; the first is taken")
                    into.setdefault(name, one)
            elif not key.startswith("include"):
                made.setdefault(key, value)
    return made


# ---- writing

PLAIN = re.compile(r"-?[0-9]+|[A-Za-z0-9_./][A-Za-z0-9_./:+-]*(?: [A-Za-z0-9_./+-]+)*")
ESCAPES = {"\\": "\\\\", '"': '\\"', "\n": "\\n", "\t": "\\t", "\r": "\\r"}


def spelled(it):
    """A single value as it is written."""
    text = str(it)
    if not it.quoted and text in ("", "~"):
        return "null"
    if not it.quoted and PLAIN.fullmatch(text) and not text.endswith(":"):
        return text
    return '"' + "".join(ESCAPES.get(c, c if c >= " " and c != "\x7f" else f"\\x{ord(c):02x}") for c in text) + '"'


def lines(tree):
    if isinstance(tree, Scalar):
        return [spelled(tree)]
    if not tree:
        return ["{}" if isinstance(tree, Map) else "[]"]
    made = []
    if isinstance(tree, List):
        for item in tree:
            first, *more = lines(item)
            made += [f"- {first}"] + [f"  {it}" for it in more]
        return made
    for key, value in tree.items():
        if isinstance(value, Scalar) or not value:
            made.append(f"{spelled(key)}: {lines(value)[0]}")
        else:
            made += [f"{spelled(key)}:"] + [f"    {it}" for it in lines(value)]
    return made


def written(tree):
    return "".join(f"{line}\n" for line in lines(tree))
