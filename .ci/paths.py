"""How the prover names the functions of a crate: `sending::Waiting::tend`, and `feeds::GoingTaking::take` in `impl Taking for Going`."""
import re

FUNCTION = re.compile(r"^( *)(?:pub(?:\([a-z]+\))? )?(?:const |unsafe )*fn (\w+)", re.M)

# What methods stand in: an `impl`, or a trait.
OWNER = re.compile(r"^(?:unsafe )?impl\b[^{]*|^(?:pub(?:\([a-z]+\))? )?trait (\w+)", re.M)


def brackets_end(text):
    """Where the angle brackets end with which a text begins, or 0."""
    depth = 0
    for at, it in enumerate(text):
        depth += (it == "<") - (it == ">" and text[at - 1] != "-")
        if not depth:
            return at + 1 if at else 0
    return 0


def words(text, without=()):
    """The words of a type, joined: each with a large first letter, `&` as Ref, and neither lifetimes nor any of those to be left out."""
    found = re.findall(r"&|\w+", re.sub(r"'\w+|\bmut\b", "", text))
    return "".join("Ref" if it == "&" else it[0].upper() + it[1:] for it in found if it not in without)


def owner(found):
    """The prover's name of what OWNER found: a type or a trait, or a type and behind it the trait that is implemented for it (but for Drop)."""
    if found[1]:
        return found[1]
    text = re.split(r"\bwhere\b|\n", found[0].partition("impl")[2])[0]
    end = brackets_end(text)
    generic = re.findall(r"(?:^|[<,])\s*(?:const )?(\w+)", text[:end])
    trait, is_trait, type_ = text[end:].rpartition(" for ")
    if not is_trait:
        name, _, given = type_.partition("<")
        own = re.findall(r"\w+", re.sub(r"'\w+", "", given))
        return "+".join([re.findall(r"\w+", name)[-1], *(own if set(own) - set(generic) else [])])
    plain, _, given = trait.strip().partition("<")
    if plain == "Drop":
        return words(re.sub(r"\w+::", "", type_), generic)
    return words(re.sub(r"\w+::", "", type_), generic) + words(plain.split("::")[-1]) + words(given, generic)


def body(text, function):
    """Where the body of a function begins that FUNCTION found."""
    found = re.compile(rf"^{function[1]}(?:[)].*|(?:pub|const|unsafe|fn)\b.*)?[{{]$", re.M).search(text, function.start())
    return found.end() if found else len(text)


def module(file):
    """The module that a file of src/ is, as the parts of its path."""
    parts = file[len("src/") : -len(".rt")].split("/")
    return [] if parts in (["lib"], ["main"]) else parts


def path(texts, file, function):
    """The path in its crate of a function that FUNCTION found in a file. `texts` has all files of src/: the methods of a type are told where
    the type is declared, and those of a trait where its `impl` stands."""
    heads = [it for it in OWNER.finditer(texts[file]) if it.start() < function.start()] if function[1] else []
    if not heads:
        return "::".join([*module(file), function[2]])
    name = owner(heads[-1])
    declared = re.compile(rf"^(?:pub(?:\([a-z]+\))? )?(?:struct|enum|union) {name.partition('+')[0]}\b", re.M)
    place = next((it for it in [file, *texts] if declared.search(texts[it])), file)
    return "::".join([*module(place), name, function[2]])
