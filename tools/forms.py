"""Counts the older forms of the sources by the shape of functions, types, loops and clauses: python3 tools/forms.py [ROOT] [-v]. -v lists each
place. Contracts that ask for an accepted file are found by the names of the rows' definitions."""
import collections
import glob
import re
import sys

ENUMS = "enums of two variants of which one carries a value"
CASES = "refusals as numbers, in the bodies"
BITS = "functions that give 0 or 1"
LOOPS = "while and loop"
TWINS = "groups of functions with the same body up to names and numbers"
APART = "functions of a slice of bytes and a shape"
ACCEPTED = "contracts that ask for an accepted file"
COUNTS = "a count beside an array or a slice"
MATCHES = "matches on a number"


def plain(text):
    """The text with comments and strings blanked."""
    return re.sub(r'//[^\n]*|"(?:\\.|[^"\\\n])*"', lambda m: " " * len(m[0]), text)


def closing(text, i):
    """Behind the bracket that closes the one at i."""
    ends = {"(": ")", "{": "}"}
    deep = 0
    for k in range(i, len(text)):
        deep += (text[k] == text[i]) - (text[k] == ends[text[i]])
        if deep == 0:
            return k + 1
    return len(text)


def functions(text):
    """Name, parameters, head and body of each function."""
    for m in re.finditer(r"\bfn (\w+)(?:<[^>]*>)?\(", text):
        at = closing(text, m.end() - 1)
        parameters = text[m.end() - 1 : at]
        i = at
        while True:
            while i < len(text) and text[i] not in "{;":
                i += 1
            if i >= len(text) or text[i] == ";":
                body = ""
                break
            j = closing(text, i)
            if not re.search(r"\b(requires|ensures)\b[^{}]*$", text[at:i]):
                body = text[i:j]
                break
            at = i = j
        yield m[1], parameters, text[m.start() : i], body


def count(root):
    found = collections.OrderedDict((k, []) for k in (ENUMS, CASES, BITS, LOOPS, TWINS, APART, ACCEPTED, COUNTS, MATCHES))
    same = collections.defaultdict(list)
    for path in sorted(glob.glob(root + "/crates/*/src/*.rt")):
        crate = path.split("/crates/")[1].split("/")[0]
        text = plain(open(path).read())
        for m in re.finditer(r"\benum (\w+)(?:<[^>]*>)? \{(.*?)\n\}", text, re.S):
            variants = [v for v in re.split(r",\s*\n", m[2]) if v.strip()]
            if len(variants) == 2 and any("(" in v for v in variants):
                found[ENUMS].append((crate, m[1]))
        for name, parameters, head, body in functions(text):
            place = (crate, name)
            found[CASES] += [place] * len(re.findall(r"(?:Refused|Broken|Stops|Err)\(\d+\)|refuse\(out, \d+", body))
            test = r"^\{\s*(if [^{]*\{\s*(?:return )?1\b|u64::from\([^()]*(==|<|>|is_|\())"
            if re.search(r"\{ 1 \} else \{ 0 \}", body) or re.search(r"-> u(8|32|64)", head) and re.search(test, body):
                found[BITS].append(place)
            found[LOOPS] += [place] * len(re.findall(r"\bwhile\b|\bloop \{", body))
            if re.search(r"&(mut )?\[u8\]", parameters) and re.search(r": Shape\b", parameters):
                found[APART].append(place)
            if re.search(r"\bcount: usize", parameters):
                found[COUNTS].append(place)
            if re.search(r"match [\w.]+ \{\s*(\d+|(\w+::)*[A-Z][A-Z_]+ (=>|\|))", body):
                found[MATCHES].append(place)
            if len(body) > 60:
                shape = re.sub(r"\b\d+\b", "0", re.sub(r"\s+", " ", body))
                same[re.sub(r"\b[A-Za-z_]\w*\b", "x", shape)].append(place)
        for m in re.finditer(r"struct (\w+)[^{;]*\{(.*?)\n\}", text, re.S):
            if re.search(r"\[[^\];]+; ?\w+\]", m[2]) and re.search(r"\b(count|length|len)\w*: usize", m[2]):
                found[COUNTS].append((crate, m[1]))
        for m in re.finditer(r"requires \{([^{}]*)\}", text):
            if re.search(r"(plant|plan|slot)_form [^≡]*≡ (Good|Ok)|\b(Judged|Readable) ", m[1]):
                found[ACCEPTED].append((crate, text[: m.start()].count("\n") + 1))
    found[TWINS] = [places for places in same.values() if len(places) > 1]
    return found


if __name__ == "__main__":
    roots = [a for a in sys.argv[1:] if a != "-v"]
    for what, places in count(roots[0] if roots else ".").items():
        print(len(places), what)
        if "-v" in sys.argv:
            for place in places:
                print("   ", place)
