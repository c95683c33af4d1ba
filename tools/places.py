"""Lists the places in crates/*/src (and, for 8, in crates/*/proofs) that still have a form of an older Rattle.

    python3 tools/places.py [POINT] [--of COMMIT]

POINT is 1 to 8, and all without one; COMMIT is read with `git show`, and the working tree without one. A line for each
place: the file, the line and the text; then how many there are. What a point looks for is said at its function.
"""
import difflib
import re
import subprocess
import sys
from collections import defaultdict


def tree(commit, ending, folder):
    """The files crates/*/FOLDER/**ENDING, by their paths."""
    if commit:
        names = subprocess.run(["git", "ls-tree", "-r", "--name-only", commit], capture_output=True, text=True, check=True).stdout.split("\n")
    else:
        names = subprocess.run(["git", "ls-files"], capture_output=True, text=True, check=True).stdout.split("\n")
    files = {}
    for name in names:
        if re.match(r"crates/\w+/%s/" % folder, name) and name.endswith(ending):
            if commit:
                files[name] = subprocess.run(["git", "show", commit + ":" + name], capture_output=True, text=True, check=True).stdout
            else:
                files[name] = open(name, encoding="utf-8").read()
    return files


def lines(files, pattern):
    """The lines in which a pattern stands."""
    return [(name, i + 1, line.strip()) for name, text in files.items() for i, line in enumerate(text.split("\n")) if re.search(pattern, line)]


def blocks(files, head):
    """Each item that a head begins, with its text up to the brace that closes it. A body's brace ends its line or stands alone."""
    found = []
    for name, text in files.items():
        for m in re.finditer(head, text, re.M):
            brace = re.compile(r"\{[ ]*(?:\n|\}$)|^ *\{$", re.M)
            clause = re.compile(r"^ *(?:requires|ensures|ghost)\b[^\n]*$", re.M)
            i = m.start()
            while True:
                b = brace.search(text, i)
                if not b:
                    break
                start = text.rfind("\n", 0, b.start()) + 1
                if not clause.match(text, start):
                    break
                i = text.find("\n", b.start()) + 1
            if not b:
                continue
            j = text.index("{", b.start())
            depth, k = 0, j
            while k < len(text):
                depth += {"{": 1, "}": -1}.get(text[k], 0)
                if depth == 0:
                    break
                k += 1
            found.append((name, text.count("\n", 0, m.start()) + 1, m, text[m.start():j], text[j:k + 1]))
    return found


FUNCTION = r"^ *(?:pub(?:\(crate\))? )?(?:unsafe )?(?:extern \"C\" )?fn (\w+)"


def point_1(files):
    """Enums of two variants of which one holds a value, or with a variant for none; fields that are a flag; constants that
    number kinds; a refusal's number that is compared with 0 or written as a numeral; a comment that says which number
    stands for none."""
    out = []
    for name, line, m, head, body in blocks(files, r"^ *(?:pub(?:\(crate\))? )?enum (\w+)"):
        variants = [v.strip() for v in re.sub(r"//[^\n]*", "", body.strip("{}")).split(",") if v.strip()]
        if (len(variants) == 2 and any("(" in v for v in variants)) or any(re.match(r"(Un|No|Om)\w+$", v) for v in variants):
            out.append((name, line, "enum %s {%s}" % (m.group(1), ", ".join(variants)[:80])))
    out += lines(files, r"^\s+(pub(\(crate\))? )?\w+: bool,$")
    out += lines(files, r"^(pub(\(crate\))? )?const [A-Z]\w*: u8 = \d+;")
    out += lines(files, r"\b(number|fault|wrong|first|second|known|differ) != 0|number == \d")
    out += lines(files, r"Answer::(refused|fault)\(\d+|^\s+return (1\d|2[0-5]);|^\s+(1\d|2[0-5])$")
    out += lines(files, r"^ *//.*(, or 0\b|or the number 0|; else 0|or \d+ (for|where)|and \d+ where)")
    return out


def tokens(body):
    body = re.sub(r"//[^\n]*", "", body)
    body = re.sub(r"\b(u8|u16|u32|u64|usize|bool)\b", "T", body)
    body = re.sub(r"\b(0x)?[0-9a-f]*\d[0-9a-f]*\b", "N", body)
    return re.findall(r"\w+|[^\w\s]", body)


def point_2(files):
    """Pairs of functions, or of structs, whose texts are four fifths the same where types and numerals are not looked at."""
    out = []
    items = [(n, l, m.group(1), tokens(b)) for n, l, m, h, b in blocks(files, FUNCTION)]
    items = [x for x in items if len(x[3]) >= 20 and "/answer/" not in x[0]]
    structs = [(n, l, m.group(1), tokens(b)) for n, l, m, h, b in blocks(files, r"^ *(?:pub(?:\(crate\))? )?struct (\w+)")]
    for group in (items, [s for s in structs if len(s[3]) > 12]):
        for i, a in enumerate(group):
            for b in group[i + 1:]:
                matcher = difflib.SequenceMatcher(None, a[3], b[3], autojunk=False)
                if matcher.real_quick_ratio() >= 0.8 and matcher.quick_ratio() >= 0.8 and matcher.ratio() >= 0.8:
                    out.append((a[0], a[1], "%s, and %s of %s:%d" % (a[2], b[2], b[0], b[1])))
    return out


def point_3(files):
    """Every `while` and `loop`."""
    return lines(files, r"^\s*('\w+: )?(while |loop \{)")


def point_4(files):
    """Types without a derived Debug or PartialEq; loops that fill, copy or compare; conversions by a table of numerals."""
    out = []
    for name, line, m, head, body in blocks(files, r"^ *(?:pub(?:\(crate\))? )?(?:struct|enum) (\w+)"):
        before = files[name].split("\n")[:line - 1]
        derive = ""
        while before and (before[-1].startswith("#[") or before[-1].strip().startswith("//")):
            derive += before.pop()
        if "Debug" not in derive or "PartialEq" not in derive:
            out.append((name, line, "%s derives no equality, or no Debug" % m.group(1)))
    for name, line, m, head, body in blocks(files, FUNCTION):
        if re.search(r"while [^{]*\{\s*\w+\[[^\]]*\] = (\w+\[[^\]]*\]|\d+|\w+\(i\));", body):
            out.append((name, line, "%s copies or fills" % m.group(1)))
        if re.search(r"if \w+\[\w+\] != \w+\[\w+\]", body):
            out.append((name, line, "%s compares" % m.group(1)))
        if len(re.findall(r"^\s+\d+(?:\.\.=\d+)? =>", body, re.M)) >= 1:
            out.append((name, line, "%s converts by a table" % m.group(1)))
    return out


def point_5(files):
    """Facts that stand in three or more contracts of a crate; three or more parameters that three or more of its functions take."""
    facts, groups = defaultdict(set), defaultdict(set)
    for name, line, m, head, body in blocks(files, FUNCTION):
        crate = name.split("/")[1]
        for clause in re.findall(r"requires(?: \w+)? \{ (.*) \}", head):
            for fact in re.split(r" × ", clause):
                fact = fact.strip()
                while fact.startswith("(") and fact.endswith(")") and ":" not in fact:
                    fact = fact[1:-1]
                facts[crate, re.sub(r"\.(now|old|entry)\b", "", fact)].add(m.group(1))
        taken = re.search(r"\((.*?)\)(?: ->|\s*$|\n)", head, re.S)
        names = re.findall(r"(\w+): (?:&'?\w* ?(?:mut )?)?[\w\[\]<>&; ]+", taken.group(1)) if taken else []
        groups[crate].add((m.group(1), line, name, tuple(names)))
    out = []
    for (crate, fact), users in sorted(facts.items()):
        if len(users) >= 3:
            out.append(("crates/" + crate, len(users), fact + ": " + ", ".join(sorted(users))))
    for crate, functions in sorted(groups.items()):
        seen = defaultdict(set)
        for function, line, name, names in functions:
            for i in range(len(names)):
                for j in range(i + 1, len(names)):
                    for k in range(j + 1, len(names)):
                        seen[names[i], names[j], names[k]].add(function)
        kept = {trio: users for trio, users in seen.items() if len(users) >= 3}
        told = []
        for trio, users in sorted(kept.items(), key=lambda x: -len(x[1])):
            if not any(users <= u for _, u in told):
                told.append((trio, users))
        for trio, users in told:
            out.append(("crates/" + crate, len(users), "(%s): %s" % (", ".join(trio), ", ".join(sorted(users)))))
    return out


def point_6(files):
    """Parameters and fields that say how much of a buffer is used; parallel arrays; a record packed into an array."""
    out = lines(files, r"\b(held|kept|some): usize\b")
    out += lines(files, r"\[\w+; 22\]")
    out += lines(files, r"(starts|ends): \[usize|\w+_end: usize")
    return out


def point_7(files):
    """Functions that look up which step to run in an enum's `match`."""
    out = []
    for name, line, m, head, body in blocks(files, FUNCTION):
        if re.search(r"match (operation|call|sort)\b", body):
            out.append((name, line, m.group(1)))
    return out


def point_8(files):
    """Typed `let`s that stand before in the same file, and answers that cite names of the checker's own."""
    out = []
    for name, text in files.items():
        seen = set()
        for m in re.finditer(r"\blet (\w[\w'-]*) : ([^=]*?) =([^\n]*)", text):
            key = (m.group(2), m.group(3).strip())
            if key in seen:
                out.append((name, text.count("\n", 0, m.start()) + 1, m.group(0)[:100]))
            seen.add(key)
    return out + lines(files, r"slice_known")


def main():
    arguments = sys.argv[1:]
    commit = None
    if "--of" in arguments:
        at = arguments.index("--of")
        commit = arguments[at + 1]
        del arguments[at:at + 2]
    points = arguments or list("12345678")
    code, proofs = tree(commit, ".rt", "src"), None
    for point in points:
        if point == "8":
            proofs = {n: t for n, t in tree(commit, ".antt", "proofs").items() if n.endswith("Answers.antt")}
        found = globals()["point_" + point](proofs if point == "8" else code)
        for name, line, text in found:
            print("%s:%s: %s" % (name, line, text))
        print("point %s: %d places" % (point, len(found)))


main()
