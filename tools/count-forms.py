"""Counts, crate by crate, the places in src/ that are still in an older form: python3 tools/count-forms.py [COMMIT].

Without COMMIT it reads the files as they lie here. docs/DESIGN-PASS.md says what each column is for."""

import pathlib
import re
import subprocess
import sys

TOP = pathlib.Path(__file__).resolve().parent.parent

# Words of an own enum of the shape of Option or Result, a flag or a number with a value beside it, and numbers for a refusal or a kind.
ANSWERS = (
    r"\bRefused\b|\boutcome: Outcome\b|\bOutcome::Accepted\b|\brefused\(|\brefusal_numbers\(\d|\bnumber: \d|return \d+;"
    r"|\bgood\b|\bline: 0\b|line [!=]= 0|\bletter == b|\benum (?:Best|Report|Reading|Parsed|Numeral|Listed|Held|Word|State)\b"
)
# Functions of which another differs in a type, a size or a constant alone.
TWINS = (
    r"\bfn \w*(?:8|16|32|64)\(|\bfn \w+_(?:fixed|variable)\(|\bfn (?:asked|ask|put|put_mark|spread\w*|clear_link|smaller|larger|least\w*|put_all|say_strides|zero)\("
    r"|\bfn (?:no_plan|refused|no_bitmap|no_record|no_rules)\(|\bfn \w+_(?:room|space)\(|\bfn run\("
    r"|\bfn (?:values|lengths|hops|row_hops|row_lengths|row_links|row_strides|maps|firsts|hop_rows|list_of_tries|page|scratch)\(\)"
)
COUNTED = r"^\s*while "
BY_HAND = r"\bfn \w*(?:_numbers|answer_of)\(|\bfn (?:is_past|is_longer|told\w*|smaller|larger|least\w*)\("
PARAMETERS = 6
LIST = r":\s*&(?:'a )?(?:mut )?\[u(?:8|16|32)\]"
PLACE = r"\b(?:text|s|cases|out): &(?:'a )?(?:mut )?\[u8\],\s*(?:at|p|spot|from)\b"
SWITCH = r"\bmatch kind\b"
NAMES = ("answers", "twins", "counted", "by hand", "many", "lists", "place", "switch")


def files(commit):
    if not commit:
        return {str(p.relative_to(TOP)): p.read_text() for p in TOP.glob("crates/*/src/*.rt")}
    listed = subprocess.run(["git", "-C", TOP, "ls-tree", "-r", "--name-only", commit, "crates"], capture_output=True, text=True, check=True)
    names = [n for n in listed.stdout.split() if re.fullmatch(r"crates/\w+/src/\w+\.rt", n)]
    return {n: subprocess.run(["git", "-C", TOP, "show", f"{commit}:{n}"], capture_output=True, text=True, check=True).stdout for n in names}


def parameters(code):
    """The parameter lists of all functions."""
    for start in re.finditer(r"\bfn \w+(?:<[^>(]*>)?\(", code):
        depth, at = 1, start.end()
        while depth:
            depth += (code[at] == "(") - (code[at] == ")")
            at += 1
        yield code[start.end() : at - 1]


def count(code):
    code = re.sub(r"//[^\n]*", "", code)
    lists = list(parameters(code))
    return (
        len(re.findall(ANSWERS, code)),
        len(re.findall(TWINS, code)),
        len(re.findall(COUNTED, code, re.M)),
        len(re.findall(BY_HAND, code)),
        sum(len([p for p in re.split(r",(?![^<(\[]*[>)\]])", text) if p.strip()]) >= PARAMETERS for text in lists),
        sum(len(re.findall(LIST, text)) >= 2 for text in lists),
        sum(bool(re.search(PLACE, text)) for text in lists),
        len(re.findall(SWITCH, code)),
    )


def main():
    crates = {}
    for name, code in files(sys.argv[1] if len(sys.argv) > 1 else "").items():
        crates.setdefault(name.split("/")[1], []).append(code)
    print(f"{'crate':13}" + "".join(f"{name:>9}" for name in NAMES))
    sums = [0] * len(NAMES)
    for crate, codes in sorted(crates.items()):
        row = count("\n".join(codes))
        sums = [a + b for a, b in zip(sums, row)]
        print(f"{crate:13}" + "".join(f"{n:9}" for n in row))
    print(f"{'all':13}" + "".join(f"{n:9}" for n in sums))


if __name__ == "__main__":
    main()
