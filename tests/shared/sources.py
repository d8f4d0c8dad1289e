"""The sources of the crates as text: imports, declarations, and which declaration names which. Reading is by words and not by types, so a name that
stands for two things counts for both: what is found unused is unused, and a use may be imagined."""
import os
import re

ROOT = os.path.dirname(os.path.dirname(os.path.dirname(os.path.abspath(__file__))))

WORD = re.compile(r"\[\]|[^\s(){}\[\];,⌜⌝]+")
IMPORT = re.compile(r"\s*(?:pub )?(?:ghost )?use (\S+?)\.\{(.*)\};?\s*$")
ALIAS = re.compile(r"\s*use (\S+) as (\S+)\s*$")
CODE_IMPORT = re.compile(r"\s*(?:pub )?use ([\w:]+)::(\w+)(?: as (\w+))?;\s*$")
GROUPED_IMPORT = re.compile(r"^(\s*(?:pub )?use [\w:]+)::\{([^{}]*)\};", re.M)
ANY_IMPORT = re.compile(r"\s*(?:\w+ )*use\b")
CODE_DECLARATION = re.compile(r"\s*(?:pub(?:\(crate\))? )?(?:enum|struct|const|type) (\w+)\b")
SECTION = re.compile(r"module _\b")
NAMED = re.compile(r"(?:abbrev |unfoldable )?(?:pub )?(?:record|data) (\S+)|(?:pub )?ruleset (\S+) =|(?:abbrev |unfoldable )?(?:pub )?([^\s:=(){}]+)(?: \{[^}]*\})* :(?: |$)")
CRATES = sorted(os.listdir(os.path.join(ROOT, "crates")))
MODULE = re.compile(rf"Rattle\.({'|'.join(CRATES)})\.(specs|proofs)\.(.*)$")
DECLARED = re.compile(r"declared\.(?:(.*)\.)?([^.]+?)(?:\.TheVariants)?$")
HOLE = "◌"  # where an operator has an argument
CITED = re.compile(r"\b(\w+)::(specs|proofs)((?:::\w+)*)::(\w+)\b")  # a lemma or a definition in an attribute of Rattle code


def words(lines):
    """The words of some lines, and the parts of those that have dots in them."""
    found = set()
    for word in WORD.findall("\n".join(lines)):
        found.add(word)
        found.update(part for part in word.split(".") if part)
    return found


def stands(name, found):
    """Whether a name is among the words: itself, or as an operator with something in its places."""
    parts = [part for part in name.split(HOLE) if part]
    return name in found or (HOLE in name and bool(parts) and all(part in found for part in parts))


def one_by_one(text):
    """Rattle code in which every import names one thing."""
    return GROUPED_IMPORT.sub(lambda found: "\n".join(f"{found.group(1)}::{name.strip()};" for name in found.group(2).split(",") if name.strip()), text)


class Source:
    """One file: its crate and its path in it, its imports by the name they have here, and its declarations by their lines. Of Rattle code the
    types and constants are listed apart."""

    def __init__(self, crate, path):
        self.crate = crate
        self.path = path
        self.rattle = path.endswith(".rt")
        with open(os.path.join(ROOT, "crates", crate, path), encoding="utf-8") as file:
            self.text = one_by_one(file.read()) if self.rattle else file.read()
        self.imports = {}
        self.aliases = {}
        self.code_imports = {}
        self.unread_imports = []
        self.body = []
        for line in self.text.split("\n"):
            self.body.append(self.without_import(line.split("//")[0] if self.rattle else re.sub(r"(^|\s)--.*$", "", line)))
        self.words = words(self.body)
        if self.rattle:
            self.attributes()
        self.declarations = {} if self.rattle else self.blocks()
        self.code_declarations = [found.group(1) for found in map(CODE_DECLARATION.match, self.body) if found] if self.rattle else []
        self.constructors = {word: name for name, lines in self.declarations.items() for word in constructors(lines)}

    def without_import(self, line):
        found = IMPORT.match(line)
        if found and (not self.rattle or "ghost use" in line):
            for item in found.group(2).split(","):
                names = item.strip().split(" as ")
                if "." in names[0]:
                    self.unread_imports.append(line.strip())
                self.imports[names[-1].strip()] = (found.group(1), names[0].strip())
            return ""
        found = ALIAS.match(line)
        if found and not self.rattle:
            self.aliases[found.group(2)] = found.group(1)
            return ""
        found = CODE_IMPORT.match(line)
        if found and self.rattle:
            self.code_imports[found.group(3) or found.group(2)] = (found.group(1), found.group(2))
        elif ANY_IMPORT.match(line):
            self.unread_imports.append(line.strip())
        return line

    def attributes(self):
        """What the attributes of Rattle code cite counts as imported and used."""
        for owner, folder, path, name in CITED.findall("\n".join(self.body)):
            module = ".".join(["Rattle", self.crate if owner == "crate" else owner, folder, *path.split("::")[1:]])
            self.imports.setdefault(name, (module, name))
            self.words.add(name)

    def renamed(self):
        """The names that this file gives to what it imports, where they are not those that it has, each with what it names."""
        found = [(name, f"{module}.{original}") for name, (module, original) in self.imports.items() if name != original]
        found += self.aliases.items()
        return found + [(name, f"{module}::{original}") for name, (module, original) in self.code_imports.items() if name != original]

    def blocks(self):
        """The lines of each declaration, from its first line to the next declaration; what a section binds belongs to all of its file."""
        starts, indents = [], []
        for number, line in enumerate(self.body):
            if not line.strip():
                continue
            indent = len(line) - len(line.lstrip())
            while indents and indent < indents[-1]:
                indents.pop()
            if indent != (indents[-1] if indents else 0):
                continue
            if SECTION.match(line.strip()):
                indents.append(indent + 2)
                starts.append((None, number))
                continue
            found = NAMED.match(line.strip())
            if found:
                starts.append((found.group(1) or found.group(2) or found.group(3), number))
        ends = [number for _, number in starts[1:]] + [len(self.body)]
        named, shared = {}, []
        for (name, start), end in zip(starts, ends):
            if name is None:
                shared += self.body[start:end]
            else:
                named.setdefault(name, []).extend(self.body[start:end])
        return {name: lines + shared for name, lines in named.items()}

    def unused_imports(self):
        names = [name for name in self.imports if not stands(name, self.words)]
        return names + [name for name in self.aliases if not any(word == name or word.startswith(name + ".") for word in self.words)]


def constructors(lines):
    """The constructors that the declaration of a data type lists."""
    if not re.match(r"(?:pub )?data ", lines[0].strip()):
        return []
    return [word for line in lines[1:] if " : " in line for word in line.split(" : ")[0].split()]


class Sources:
    """All files of Rattle and antt under crates/."""

    def __init__(self):
        self.files = {}
        for crate in CRATES:
            top = os.path.join(ROOT, "crates", crate)
            for folder, inner, names in os.walk(top):
                inner[:] = [name for name in inner if name != "out"]
                for name in sorted(names):
                    if name.endswith((".rt", ".antt")):
                        path = os.path.relpath(os.path.join(folder, name), top)
                        self.files[crate, path] = Source(crate, path)

    def meant(self, source, word):
        """The declarations that a word of a file can mean, each by its file and its name."""
        found = []
        if word in source.declarations:
            found.append(((source.crate, source.path), word))
        if word in source.constructors:
            found.append(((source.crate, source.path), source.constructors[word]))
        for name in source.declarations:
            if HOLE in name and stands(name, {word}):
                found.append(((source.crate, source.path), name))
        for name, (module, original) in source.imports.items():
            if name == word or (HOLE in name and word in name.split(HOLE)):
                found += self.declared(module, original)
        head, _, rest = word.partition(".")
        if rest and head in source.aliases:
            found += self.declared(source.aliases[head], rest)
        return found

    def declared(self, module, name):
        """The declaration of a module of the crates by its name, or that of its data type if it is a constructor."""
        found = MODULE.match(module)
        key = found and (found.group(1), f"{found.group(2)}/{found.group(3).replace('.', '/')}.antt")
        if key not in self.files:
            return []
        file = self.files[key]
        if name in file.declarations:
            return [(key, name)]
        return [(key, file.constructors[name])] if name in file.constructors else []

    def meant_in_code(self, source, word):
        """The types and constants of Rattle code that a word of a file can mean, each by its file and its name."""
        if word in source.code_declarations:
            return [((source.crate, source.path), word)]
        if word in source.code_imports:
            module, original = source.code_imports[word]
            crate, *above = module.split("::")
            return self.declared_in_code(source.crate if crate == "crate" else crate, above, original)
        module = MODULE.match(source.imports.get(word, ("",))[0])
        found = module and DECLARED.match(module.group(3))
        return self.declared_in_code(module.group(1), (found.group(1) or "").split("."), found.group(2)) if found else []

    def declared_in_code(self, crate, above, name):
        file = self.files.get((crate, "src/" + ("/".join(filter(None, above)) or "lib") + ".rt"))
        return self.meant_in_code(file, name) if file else []

    def reached(self, roots):
        """The declarations that the roots name, directly or through others."""
        seen, left = set(), list(roots)
        while left:
            item = left.pop()
            if item not in seen:
                seen.add(item)
                source = self.files[item[0]]
                for word in words(source.declarations[item[1]]):
                    left += self.meant(source, word)
        return seen
