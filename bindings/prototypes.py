"""The C prototypes of the library's exports, from its source.

    prototypes.py HEADER SOURCES    tells where the header differs from the exports in a folder of sources
    prototypes.py SOURCES           prints the prototypes
"""
import pathlib
import re
import sys

PLAIN = {"u32": "uint32_t", "u64": "uint64_t", "i32": "int32_t", "i64": "int64_t", "bool": "bool"}

EXPORT = re.compile(r'#\[unsafe\(no_mangle\)\]\s*pub extern "C" fn (\w+)\(([^)]*)\)\s*(?:-> (\w+))?')


def type_of(kind):
    """What C calls a type that stands behind a reference: a number, or a struct of the header."""
    return PLAIN.get(kind) or kind.replace("Trb", "TrB_")


def parameters(name, kind):
    """The C parameters of one parameter: a slice is a pointer and its length, and the allocator is none."""
    if kind == "Global":
        return []
    if kind == "&mut [TrbPass]":
        return [f"TrB_Pass *{name}", f"size_t n{name}"]
    slice_ = re.fullmatch(r"&(mut )?\[(\w+)\]", kind)
    if slice_:
        return [f"{'' if slice_[1] else 'const '}{PLAIN[slice_[2]]} *{name}", f"size_t n{name}"]
    reference = re.fullmatch(r"&mut (\w+)", kind)
    if reference:
        return [f"{type_of(reference[1])} *{name}"]
    return [f"{PLAIN[kind]} {name}"]


def exports(folder):
    """The prototype of each export, as one line."""
    for path in sorted(pathlib.Path(folder).glob("*.rt")):
        for name, given, result in EXPORT.findall(path.read_text()):
            found = []
            for parameter in filter(None, (word.strip() for word in given.split(","))):
                word, kind = parameter.split(":", 1)
                found += parameters(word.strip(), " ".join(kind.split()))
            yield f"{PLAIN.get(result, 'void')} {name}({', '.join(found) or 'void'});"


def prototypes(header):
    """The lines of the header that declare an export."""
    lines = (" ".join(line.split()) for line in pathlib.Path(header).read_text().splitlines())
    return {line for line in lines if re.match(r"(bool|u?int32_t|void) trb_\w+\(.*\);$", line)}


def main(words):
    ours = list(exports(words[-1]))
    if len(words) == 1:
        print("\n".join(ours))
        return 0
    theirs = prototypes(words[0])
    for line in ours:
        if line not in theirs:
            print(f"not in the header: {line}")
    for line in sorted(theirs - set(ours)):
        print(f"no export: {line}")
    if not ours:
        print("no export was found")
    return int(not ours or theirs != set(ours))


if __name__ == "__main__":
    sys.exit(main(sys.argv[1:]))
