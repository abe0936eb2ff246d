"""The functions of a crate's sources, in the layout of rt fmt."""
import glob
import re

import kit

HEAD = re.compile(r'^( *)(pub )?(?:pub\([a-z ]+\) )?((?:(?:const|final|unsafe|extern "C") )*)fn (\w+)', re.M)
OWNER = re.compile(r"^(?:pub(?:\([a-z ]+\))? )?(impl|trait)\b(.*?)\{", re.M | re.S)
TYPE = re.compile(r"^(?:pub(?:\([a-z ]+\))? )?(?:struct|enum|trait) (\w+)", re.M)


class Function:
    """A function of a file: its text there, and its path, as `rattle` prints it below the crate: `Type::name`, and `TypeTrait::name` of a trait's
    impl, in the module of the type, where that is known."""

    def __init__(self, file, text, head, homes):
        self.file, self.indent, self.name = file, head[1], head[4]
        kind, self.type, trait, parameters = owner_of(text, head)
        self.is_public, self.is_of_trait = bool(head[2]), kind == "trait" or bool(trait)
        parameters += re.match(r"(?:<(.*?)>)?\(", text[head.end() :], re.S).group(1) or ""
        self.has_types = bool(re.sub(r"'\w+|[:,\s]", "", parameters))
        # (`drop` is called by the type's path alone)
        self.owner = joined(homes.get(self.type) if self.type else module_of(file), self.type + one_word(trait if trait != "Drop" else ""))
        self.path = joined(self.owner, self.name)
        self.named_at, self.begins = head.start(4), head.start()
        while (above := text.rfind("\n", 0, self.begins - 1) + 1) < self.begins and text.startswith(f"{self.indent}#[", above):
            self.begins = above
        self.body, self.ends = body_of(text, head)
        # What has no body, makes a constant, or tells the type of its result by its body is left as it is, and so is what has no plain path.
        has_plain_path = (not self.type or self.type in homes) and "<" not in trait
        self.may_have_hole = bool(self.body) and "const" not in head[3] and "-> impl " not in text[self.begins : self.body] and has_plain_path

    def holds(self, at):
        return self.begins <= at < self.ends

    def folder(self, name=None):
        """Where its proof lies, or that of another function with this name beside it."""
        return f"proofs/{joined(self.owner, name or self.name).replace('::', '/')}"


def joined(*parts):
    """A path of these parts, some of which are not there."""
    return "::".join(it for it in parts if it)


def module_of(file):
    """The path of the module that a file of src/ is."""
    return re.sub(r"^src/(?:(?:lib|main)\.rt$)?|\.rt$", "", file).replace("/", "::")


def owner_of(text, head):
    """Whether the function with this head is in a trait or an impl, the name of the trait or the type, the trait that this is an impl of, and the
    impl's parameters."""
    if not head[1]:
        return "", "", "", ""
    kind, of = next(it for it in reversed([*OWNER.finditer(text)]) if it.start() < head.start()).groups()
    if kind == "trait":
        return kind, one_word(of.partition(":")[0]), "", ""
    parameters, of = re.match(r"(?:<(.*?)>\s+(?=\w))?(.*)", of, re.S).groups("")
    trait, _, of = re.sub(r"\bwhere\b.*", "", of, flags=re.S).strip().rpartition(" for ")
    return kind, one_word(re.sub(r"<.*", "", of, flags=re.S)), trait, parameters


def one_word(kind):
    """A type or a trait as it stands in the names that `rattle` prints: without lifetimes, paths and marks."""
    return re.sub(r"\W", "", re.sub(r"'\w+,? ?|\w+::", "", kind))


def body_of(text, head):
    """Where the body of the function with this head begins, if it has a text of its own, and where the function ends."""
    at = head.start()
    for line in re.finditer(r".*\n", text[at:]):
        said, ends = line[0].rstrip(), at + line.end() - 1
        if said.endswith((";", "{}")) and text.count("{", at, ends) == text.count("}", at, ends):
            return None, ends
        if said == f"{head[1]}{{" or said.endswith(" {") and (line.start() == 0 or said.startswith(f"{head[1]})")):
            return ends, text.find(f"\n{head[1]}}}", ends) + len(head[1]) + 2
    return None, at


def read(crate):
    """The files of a crate's src/ with their texts, and its functions."""
    folder = f"{kit.ROOT}/crates/{crate}"
    texts = {it: kit.text(f"{folder}/{it}") for it in sorted(glob.glob("src/**/*.rt", root_dir=folder, recursive=True))}
    homes = {it[1]: module_of(file) for file, text in texts.items() for it in TYPE.finditer(text)}
    functions = []
    for file, text in texts.items():
        for head in HEAD.finditer(text):
            # (one within another's body is a part of it)
            if not functions or functions[-1].file != file or not functions[-1].holds(head.start()):
                functions.append(Function(file, text, head, homes))
    return texts, functions
