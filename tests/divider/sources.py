"""No `/` and no `%` in a function of the library: all crates but the programs. Contracts are mathematics and may divide.

The look is tried first: on functions that divide, and on ones where only a contract, a comment or a literal has the sign.
"""
import pathlib
import re
import sys

PROGRAMS = {"card", "drive"}

# What is no code: imports for contracts, byte strings and bytes, comments; and contracts, which begin so and go on to their closing brace.
NO_CODE = re.compile(r"""ghost\ use\ [^;]*;|b"(?:\\.|[^"\\])*"|b'(?:\\.|[^'\\])'|//[^\n]*""", re.X)
CLAUSE = re.compile(r"\b(?:requires|ensures)(?:\s+\w+)?\s*\{")

CONTROLS = [
    ("fn f(n: usize) -> usize { n / 8 }", 1),
    ("fn f(n: usize) -> bool { n % 8 != 0 }", 1),
    ("fn f(n: usize) -> usize { let mut m = n;\nm /= 8;\nm %= 3;\nm }", 2),
    ("fn f(n: usize) -> usize ensures { result ≡ n / 8 } { n / 8 } // n / 8", 1),
    ("ghost use Rattle.std.specs.Prelude.{◌/◌, ◌%◌};\nfn f(n: usize) -> usize\n    ensures low { (λ r. record { low = n / 8 }) result }\n{\n    n >> 3 // n / 8\n}", 0),
    ("fn f(c: u8) -> bool { c == b'/' || c == b'%' }\nfn g(o: &mut [u8]) { put(o, b\"a/b %\\\"\") }", 0),
]


def blank(text):
    return re.sub(r"[^\n]", " ", text)


def without_contracts(text):
    """The source with its clauses blank, each to the brace that closes it."""
    end = 0
    while found := CLAUSE.search(text, end):
        end, depth = found.end(), 1
        while depth:
            depth += {"{": 1, "}": -1}.get(text[end], 0)
            end += 1
        text = text[: found.start()] + blank(text[found.start() : end]) + text[end:]
    return text


def divisions(text):
    """The lines of the source where code divides."""
    code = without_contracts(NO_CODE.sub(lambda found: blank(found.group()), text))
    return [number for number, line in enumerate(code.split("\n"), 1) if "/" in line or "%" in line]


def main():
    for text, count in CONTROLS:
        if len(divisions(text)) != count:
            sys.exit(f"divider: the look at the source is wrong about: {text}")
    crates = [line.split(":")[0].split()[0] for line in open("crates.txt", encoding="utf-8") if re.match(r"[a-z_]+( staticlib)?:", line)]
    looked = 0
    for crate in sorted(set(crates) - PROGRAMS):
        for source in sorted(pathlib.Path("crates", crate, "src").rglob("*.rt")):
            looked += 1
            text = source.read_text(encoding="utf-8")
            found = divisions(text)
            if found:
                sys.exit(f"divider: {source}:{found[0]} divides: {text.splitlines()[found[0] - 1].strip()}")
            # what passes would not if a function divided at its end
            if not divisions(text + "\nfn last(n: usize) -> usize { n / 8 }\n"):
                sys.exit(f"divider: the look does not reach the end of {source}")
    if not looked:
        sys.exit("divider: no source of the library is here")
    print(f"divider: no division in {looked} sources of the library")


main()
