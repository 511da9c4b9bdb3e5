#!/usr/bin/env python3
"""Compares the declarations of include/gixp.h with the exports of crates/gixp_c: names, parameters, and the fields of structs. Compares the
exports of crates/gixp_web with them: the same files, and one for memory.

Prints each difference. The status is 1 if there is one.
"""
import pathlib
import re
import sys

TOP = pathlib.Path(__file__).resolve().parent.parent
# The C type of a parameter or field of the exports.
PLAIN = {"u8": "uint8_t", "u32": "uint32_t", "i64": "int64_t", "usize": "size_t", "Span": "gixp_span", "RefRecord": "gixp_ref",
         "FoundRecord": "gixp_found", "PieceRecord": "gixp_piece_record", "StepRecord": "gixp_step",
         "SessionInputRecord": "gixp_session_input",
         "MappingRecord": "gixp_mapping", "MappedRecord": "gixp_mapped"}


def sources():
    for crate in ("gixp_c", "gixp_calls", "gixp_records"):
        for file in sorted((TOP / "crates" / crate / "src").glob("*.rt")):
            yield file.read_text()


def in_c(type_):
    """-> the types of the C parameters for a parameter of this type."""
    if type_ == "Global":
        return []
    array = re.fullmatch(r"\[(\w+); (\d+)\]", type_)
    if array:
        return [PLAIN[array.group(1)] + "[%s]" % array.group(2)]
    slice_ = re.fullmatch(r"&(?:'a )?(mut )?\[(\w+)\]", type_)
    if slice_:
        return [("" if slice_.group(1) else "const ") + PLAIN[slice_.group(2)] + " *", "size_t"]
    one = re.fullmatch(r"&(mut )?(\w+)(<'_>)?", type_)
    if one:
        return [("" if one.group(1) else "const ") + PLAIN[one.group(2)] + " *"]
    return [PLAIN[type_]]


def fields_in_c(name, types):
    """-> the fields of a C struct for a field: two for a slice."""
    return [(name + ("_len" if place else ""), type_) for place, type_ in enumerate(types)]


def exports():
    functions, records = {}, {}
    for text in sources():
        for name, parameters, result in re.findall(r'extern "C" fn (\w+)\((.*?)\) -> (\w+)', text, re.S):
            types = re.findall(r"\w+: ([^,]+(?:\[[^]]*\])?),?\s", parameters + "\n")
            functions[name] = PLAIN[result], [c for t in types for c in in_c(t.strip())]
        for name, fields in re.findall(r"#\[repr\(C\)\].*?pub struct (\w+)(?:<'a>)? \{(.*?)\n\}", text, re.S):
            records[PLAIN[name]] = [field for f, t in re.findall(r"pub (\w+): ([^,]+),", fields) for field in fields_in_c(f, in_c(t))]
    return functions, records


def header():
    text = re.sub(r"/\*.*?\*/", "", (TOP / "include/gixp.h").read_text(), flags=re.S)
    functions, records = {}, {}
    for result, name, parameters in re.findall(r"^(\w+) (gixp_\w+)\((.*?)\);", text, re.S | re.M):
        functions[name] = result, [re.fullmatch(r"(.*?)\w+", " ".join(p.split())).group(1).strip() for p in parameters.split(",")]
    for fields, name in re.findall(r"typedef struct \w+ \{(.*?)\} (\w+);", text, re.S):
        fields = re.sub(r"(\w+), (\w+);", r"\1; size_t \2;", fields)
        records[name] = [(f, " ".join(t.split()) + n) for t, f, n in re.findall(r"((?:const )?\w+ \*?)(\w+)(\[\d+\])?;", fields)]
    return functions, records


def other_files():
    """-> the files of gixp_web that differ from those of gixp_c, but for its own."""
    ours, web = ({file.name: file.read_text() for file in (TOP / "crates" / crate / "src").glob("*.rt")} for crate in ("gixp_c", "gixp_web"))
    own = {"lib.rt", "memory.rt"}
    return [f"crates/gixp_web/src/{name} isn't that of gixp_c" for name in sorted((ours.keys() | web.keys()) - own) if ours.get(name) != web.get(name)]


def main():
    (functions, records), (declared, structs) = exports(), header()
    wrong = [f"{name}: {functions.get(name)} exported, {declared.get(name)} declared"
             for name in sorted(functions.keys() | declared.keys()) if functions.get(name) != declared.get(name)]
    wrong += [f"{name}: {records.get(name)} exported, {structs.get(name)} declared"
              for name in sorted(records.keys() | structs.keys()) if records.get(name) != structs.get(name)]
    wrong += other_files()
    print("\n".join(wrong) or f"{len(functions)} exports and {len(records)} structs agree with the header")
    return bool(wrong)


if __name__ == "__main__":
    sys.exit(main())
