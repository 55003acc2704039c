#!/usr/bin/env python3
"""Lays .antt files out as the others are; run `rt fmt` after it.

    tools/lay.py FILE...           rewrites the files
    tools/lay.py --check FILE...   names the lines over 140 characters of .rt and .antt files, and fails if there are any

- Imports of a crate stand together: `use Rattle.model.specs.{Sets.{Slot, Set}, Base.Stop}`.
- A line over 140 characters is broken: an import into two, a signature at its arrows, a comment between words, a term where the fewest
  brackets are open. rt fmt lays a bracketed list that is broken one element a line, so a break inside one comes last. What cannot be
  broken needs a name by hand.
"""
import re
import sys

WIDTH = 140
LEAST = 24  # characters that stay on a line that is broken
SHORT = 30  # a rest that is shorter is better longer
OPEN, CLOSE = "([{⌜", ")]}⌝"


# ---- Imports

IMPORT = re.compile(r"^use (Rattle\.\w+\.(?:specs|proofs))\.(.*\})$")


def items(text):
    """The parts of a list between commas, those in braces whole."""
    depth, part = 0, ""
    for ch in text + ",":
        depth += (ch == "{") - (ch == "}")
        if ch == "," and depth == 0:
            yield part.strip()
            part = ""
        else:
            part += ch


def paths(text):
    """`A.{b, C.d}` as the pairs (A, b) and (A.C, d); the types that code declares stand under one module, `declared`."""
    for item in items(text):
        if item.endswith("}"):
            above, inner = item[:-1].split("{", 1)
            for module, name in paths(inner):
                yield (above + module).rstrip("."), name
        elif item:
            module, _, name = item.rpartition(".")
            yield module, name


def import_line(crate, modules):
    if len(modules) == 1:
        return "use %s.%s.{%s}" % (crate, modules[0][0], ", ".join(modules[0][1]))
    inner = ", ".join(m + "." + n[0] if len(n) == 1 else m + ".{" + ", ".join(n) + "}" for m, n in modules)
    return "use %s.{%s}" % (crate, inner)


def import_lines(crate, modules, width=WIDTH):
    """As many modules on a line as fit, a long list of names on several."""
    lines, line = [], []
    for module, names in modules:
        if line and len(import_line(crate, line + [(module, names)])) > width:
            lines.append(import_line(crate, line))
            line = []
        while len(names) > 1 and len(import_line(crate, [(module, names)])) > width:
            k = len(names)
            while k > 1 and len(import_line(crate, [(module, names[:k])])) > width:
                k -= 1
            lines.append(import_line(crate, [(module, names[:k])]))
            names = names[k:]
        line.append((module, names))
    return lines + [import_line(crate, line)]


def grouped(lines):
    crates, kept, at = {}, [], None
    for line in lines:
        m = IMPORT.match(line)
        if not m:
            kept.append(line)
            continue
        at = len(kept) if at is None else at
        for module, name in paths(m[2]):
            if module == "declared." + name:
                module, name = "declared", name + "." + name
            names = crates.setdefault(m[1], {}).setdefault(module, [])
            names += [name] if name not in names else []
    if at is None:
        return lines
    out = []
    for crate in sorted(crates, key=lambda c: not c.startswith("Rattle.model.")):
        modules = crates[crate]
        if "Prelude" in modules:
            out += import_lines(crate, [("Prelude", modules.pop("Prelude"))])
        if modules:
            out += import_lines(crate, [(m, modules[m]) for m in sorted(modules, key=lambda m: not m.startswith("declared"))])
    return kept[:at] + out + kept[at:]


# ---- Long lines

BEFORE = ("in ", "where", ".", ": ", "= ", "- ", "+ ", "* ", "/ ", "≤ ", "< ")
AFTER = ("λ", "let", " as", "→", "∙", "≡", "×", "++", ":", "+", "-", "*", "/", "≤", "<", "&&", "||", "⊎", "∷", "then", "else", "Type")
OPERATORS = ("→ ", "∙ ", "≡ ", "× ", "⊎ ", "++ ", "&& ", "|| ", "∷ ", "then ", "else ")


def levels(s):
    """For each place the brackets open there; the brackets that hold a list, and those that hold an operator."""
    lists, infix, stack, opened = set(), set(), [-1], []
    for i, ch in enumerate(s):
        opened.append(list(stack))
        if ch in OPEN:
            stack.append(i)
            if s[:i].endswith("record "):
                lists.add(i)
        elif ch in CLOSE and len(stack) > 1:
            stack.pop()
        elif ch in ",;":
            lists.add(stack[-1])
        elif ch == " " and s[i + 1:].startswith(OPERATORS + ("- ", "+ ", "* ")):
            infix.add(stack[-1])
    return opened, lists - {-1}, infix


def breaks(s):
    """Where s may be broken, with a cost: a place, and how bad it is to go on below from there."""
    opened, lists, infix = levels(s)
    for i, ch in enumerate(s):
        if ch != " " or not s[:i].strip():
            continue
        a, b, stack = s[:i], s[i + 1:], opened[i]
        if b.startswith(BEFORE) or b in ("in", "=") or a.endswith(AFTER) or re.search(r"λ [^.]*$", a):
            continue
        if b.startswith("→ ") or a.endswith((" in", ";")):
            cost = 0
        elif b.startswith("∙ ") or a.endswith(" ="):
            cost = 1
        elif b.startswith(OPERATORS) or a.endswith((",", ".")):
            cost = 2
        else:
            cost = (4 if b[:1] in "({" else 6) + (6 if stack[-1] in infix else 0)
        short = 6 if len(b) < SHORT and not a.endswith((" in", ";")) else 0
        yield i + 1, 4 * len(stack) - 4 + cost + short + (12 if lists & set(stack) else 0)


def filled(line, indent):
    out = []
    while len(line) > WIDTH:
        lead = len(line) - len(line.lstrip())
        places = [(at, cost) for at, cost in breaks(line) if lead + LEAST < at <= WIDTH + 1]
        if not places:
            break
        at = min(places, key=lambda p: (p[1] + (WIDTH - p[0]) // 16, -p[0]))[0]
        out.append(line[:at].rstrip())
        line = " " * (indent + 4) + line[at:]
    return out + [line]


def signature(line, indent):
    """As many arrows on a line as fit."""
    arrows = [at for at, cost in breaks(line) if cost == 0 and line[at] == "→"]
    parts = [line[a:b].rstrip() for a, b in zip([0] + arrows, arrows + [None])]
    out, now = [], parts[0]
    for part in parts[1:]:
        if len(now) + 1 + len(part) <= WIDTH:
            now += " " + part
        else:
            out += filled(now, indent)
            now = " " * (indent + 4) + part
    return out + filled(now, indent)


def is_signature(text):
    depth = 0
    for i, ch in enumerate(text):
        depth += (ch in OPEN) - (ch in CLOSE)
        if depth == 0 and text.startswith(" = ", i):
            return False
        if depth == 0 and text.startswith(" : ", i):
            return not text.startswith(("let ", "record ", "pub record ", "module "))
    return text.startswith("→")


def broken(line):
    text = line.lstrip()
    indent = len(line) - len(text)
    if len(line) <= WIDTH:
        return [line]
    if text.startswith("--"):
        out = [" " * indent + "--"]
        for word in text[2:].split():
            if len(out[-1]) + 1 + len(word) > WIDTH and out[-1].strip() != "--":
                out.append(" " * indent + "--")
            out[-1] += " " + word
        return out
    m = re.match(r"((?:unfoldable )?(?:pub )?use )([^\s{]+)\.\{([^{}]*)\}$", text)
    if m:
        crate, module = m[2].rsplit(".", 1)
        lines = import_lines(crate, [(module, m[3].split(", "))], WIDTH - len(m[1]) + len("use "))
        return [line.replace("use ", m[1], 1) for line in lines]
    if is_signature(text):
        return signature(line, indent - 4 if text.startswith("→") else indent)
    return filled(line, indent)


def flowing(lines):
    """A comment that is too long takes the line below it along, if that goes on with it."""
    out = []
    for line in lines:
        above = out[-1] if out else ""
        same = len(above) - len(above.lstrip()) == len(line) - len(line.lstrip())
        if len(above) > WIDTH and above.lstrip().startswith("-- ") and re.match(r" *-- [^ -]", line) and same:
            out[-1] += line.lstrip()[2:]
        else:
            out.append(line)
    return out


def laid(text):
    lines = flowing(grouped(text.split("\n")))
    return "\n".join(part for line in lines for part in broken(line))


def too_long(path, text):
    """Tells the lines of a file that are too long, and how many there are."""
    found = [(number, len(line)) for number, line in enumerate(text.split("\n"), 1) if len(line) > WIDTH]
    for number, length in found:
        print("%s:%d: %d characters" % (path, number, length))
    return len(found)


def main():
    check = sys.argv[1:2] == ["--check"]
    files = sys.argv[1 + check:]
    if not files or any(f.startswith("-") or not (check or f.endswith(".antt")) for f in files):
        sys.exit(__doc__)
    long = 0
    for path in files:
        with open(path, encoding="utf8") as f:
            text = f.read()
        if check:
            long += too_long(path, text)
            continue
        new = laid(text)
        if new != text:
            with open(path, "w", encoding="utf8") as f:
                f.write(new)
    sys.exit(1 if long else 0)


if __name__ == "__main__":
    main()
