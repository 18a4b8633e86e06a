#!/usr/bin/env python3
"""What one reads to know what is promised.

    docs/promises.py [CRATE.specs.FILE.NAME ..]
    docs/promises.py --laws

Each promise is a definition of a crate's specs/. From a definition on, the names in it lead to the definitions that they
are, and so on, down to std's: this is what one reads. Without words the promises are the headline and what the top call
answers. For each the files are printed in the order in which one comes to them, with how many lines of each one reads and
the definitions that stand there.

With --laws it prints the table of the laws, crate by crate, with the statements that each has as its contract.

Without words it sees too that this table stands in THEOREMS.md, and that each link of README.md and of the pages of docs/ whose text is a `NAME` alone and which leads to a file of
specs/ finds this name defined there. What is missing is printed, and the status is then 1.
"""
import os
import re
import sys

TOP = os.path.dirname(os.path.dirname(os.path.abspath(__file__)))
PROMISES = [
    ("The headline", "headline.specs.Headline.IsEmitted"),
    ("What the top call answers", "job_steps.specs.Answers.Answers"),
]
WORD = re.compile(r"[^\W\d][\w'-]*")
HEAD = re.compile(r"(?:abbrev |unfoldable )?(?:pub )?(?:abbrev |record |data |unfoldable )?(?:pub )?([\w'-]+) ?[:{(]")


def path_of(module):
    """The file of a module, as `loop_ir.specs.Meaning`, or None where it is none of this repository."""
    path = os.path.join(TOP, "crates", *module.split(".")) + ".antt"
    return path if os.path.exists(path) else None


class Module:
    """A file of specs/: what it imports, by name, and where each of its definitions stands."""

    def __init__(self, name):
        self.name = name
        self.imports = {}
        self.definitions = {}
        with open(path_of(name), encoding="utf-8") as file:
            self.lines = file.read().split("\n")
        self.read()

    def read(self):
        start, names = None, []
        for number, line in enumerate(self.lines + ["end"]):
            bare = line.strip()
            if line.startswith("use Rattle."):
                self.read_import(line)
            elif not bare:
                if start is not None:
                    self.close(start, number, names)
                start, names = None, []
            elif start is None and not bare.startswith("--"):
                start = number
            if start is not None:
                found = HEAD.match(bare)
                if found and "pub " in bare.split(":")[0]:
                    names.append(found.group(1))
                names += [n for n in re.findall(r"^([A-Z]\w*(?: [A-Z]\w*)*) :", bare) for n in n.split()]
        if start is not None:
            self.close(start, len(self.lines), names)

    def close(self, start, end, names):
        for name in names:
            self.definitions.setdefault(name, (start, end))

    def read_import(self, line):
        module, _, rest = line[len("use Rattle."):].partition(".{")
        if rest:
            for item in rest.rstrip("}").split(","):
                name, _, other = item.strip().partition(" as ")
                self.imports[other or name] = (module, name)
        else:
            module, _, other = module.partition(" as ")
            self.imports[other or module.split(".")[-1]] = (module, None)


modules = {}


def module(name):
    if name not in modules:
        modules[name] = Module(name) if path_of(name) else None
    return modules[name]


def names_read(of, start, end):
    """What a definition names, as pairs of a module and a name; a type of the code is a module without a name."""
    for line in of.lines[start:end]:
        text = re.sub(r"--.*", "", line)
        for word in WORD.findall(text):
            if word in of.imports:
                target, name = of.imports[word]
                if name is None:
                    for dotted in re.findall(re.escape(word) + r"\.([\w'-]+)", text):
                        yield target, dotted
                else:
                    yield target, name
            elif word in of.definitions:
                yield of.name, word


def what_is_read(promise):
    """The definitions that a promise stands on: for each module the names that are read there, in order."""
    first, name = promise.rsplit(".", 1)
    read, todo = {}, [(first, name)]
    while todo:
        place, name = todo.pop(0)
        if ".declared." in place:
            read.setdefault(place.split(".specs.declared.")[0] + "/src", [])
            continue
        found = module(place)
        if found is None or name in read.get(place, ()) or name not in found.definitions:
            continue
        read.setdefault(place, []).append(name)
        todo += names_read(found, *found.definitions[name])
    return read


def heads_read(place, names):
    """The definitions of a file that these names lead to, in its order, and how many lines they have."""
    found = module(place)
    spans = sorted({found.definitions[name] for name in names})
    heads = [next(n for n, span in found.definitions.items() if span == wanted) for wanted in spans]
    return heads, sum(end - start for start, end in spans)


def tell(what, promise):
    read = what_is_read(promise)
    if not read:
        print(f"{promise}: there is no such definition")
        return False
    files = [place for place in read if not place.endswith("/src")]
    heads = {place: heads_read(place, read[place]) for place in files}
    total = sum(lines for _, lines in heads.values())
    print(f"{what}: {promise.rsplit('.', 1)[1]}, {len(files)} files, {total} lines")
    for place in files:
        names, lines = heads[place]
        print(f"  crates/{place.replace('.', '/')}.antt, {lines} lines: {', '.join(names)}")
    types = sorted(place for place in read if place.endswith("/src"))
    if types:
        print(f"  and the types of {', '.join('crates/' + place for place in types)}")
    return True


def check_links():
    """Each link whose text is a name alone finds this name in its file of specs/."""
    pages = [os.path.join(TOP, "README.md")]
    pages += sorted(os.path.join(TOP, "docs", page) for page in os.listdir(os.path.join(TOP, "docs")) if page.endswith(".md"))
    good, count = True, 0
    for page in pages:
        with open(page, encoding="utf-8") as file:
            text = file.read()
        for name, link in re.findall(r"\[`([\w'-]+)`\]\(([^)#]*/specs/[^)#]*\.antt)\)", text):
            count += 1
            path = os.path.normpath(os.path.join(os.path.dirname(page), link))
            place = os.path.relpath(path, os.path.join(TOP, "crates"))[: -len(".antt")].replace(os.sep, ".")
            found = module(place)
            if found is None or name not in found.definitions:
                print(f"{os.path.relpath(page, TOP)}: {name} isn't defined in {link}")
                good = False
    print(f"{count} links to definitions")
    return good


def law_table():
    """The table of the laws: those of src/laws.rt, crate by crate in the order of crates.txt."""
    rows = ["| Crate | Law | Statements |", "|---|---|---|"]
    with open(os.path.join(TOP, "crates.txt"), encoding="utf-8") as file:
        crates = re.findall(r"^(\w+):", file.read(), re.M)
    for crate in crates:
        path = os.path.join(TOP, "crates", crate, "src", "laws.rt")
        if not os.path.exists(path):
            continue
        with open(path, encoding="utf-8") as file:
            text = file.read()
        homes = {}
        for home, names in re.findall(r"^ghost use Rattle\.(\w+)\.specs\.Promises\.\{([^}]*)\};", text, re.M):
            homes.update({name.strip(): home for name in names.split(",")})
        for law, clauses in re.findall(r"^pub fn (\w+)\(\)\n((?:    ensures[^\n]*\n)+)", text, re.M):
            names = list(dict.fromkeys(re.findall(r"\{ (\w+)(?: [^}]*)? \}", clauses)))
            links = [f"[`{name}`](../crates/{homes[name]}/specs/Promises.antt)" for name in names if name in homes]
            if links:
                rows.append(f"| {crate} | `{law}` | {', '.join(links)} |")
    return rows


def check_table():
    """The table of the laws stands in THEOREMS.md."""
    with open(os.path.join(TOP, "docs", "THEOREMS.md"), encoding="utf-8") as file:
        page = file.read()
    good = "\n".join(law_table()) + "\n" in page
    if not good:
        print("docs/THEOREMS.md: its table of laws isn't the one that docs/promises.py --laws prints")
    return good


def main():
    words = sys.argv[1:]
    if words == ["--laws"]:
        print("\n".join(law_table()))
        return
    wanted = [(word, word) for word in words] or PROMISES
    good = all([tell(what, promise) for what, promise in wanted])
    if not words:
        good = check_table() and good
        good = check_links() and good
    sys.exit(0 if good else 1)


if __name__ == "__main__":
    main()
