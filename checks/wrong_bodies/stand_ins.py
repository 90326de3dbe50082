"""Stand-ins for the bodies of functions whose wrong bodies aren't tried. A function is proved from the contracts of those that it calls,
so a try needs the contracts of the other functions and not their proofs. A stand-in calls a function of which it is assumed that it
doesn't return, so it meets any contract, and its proof takes next to nothing. Nothing that is proved over stand-ins is kept as a proof
of the crate, which `rt ci` proves as it stands."""

from edits import PROOF_FILES, cycle_of, functions_of

MODULE = """//! What stands in for the bodies that aren't tried.

unsafe extern "C" {
    fn never_returns() -> i32
        ensures { ⊥ };
}

pub fn stand_in() -> !
{
    unsafe { never_returns() };
    unreachable!()
}
"""
BODY = "    crate::stand_in::stand_in()"


def with_stand_ins(text, kept, planted, copies):
    """The text of a file with stand-ins for all bodies but those of the functions that are kept; in which some lines, by their numbers,
    have others planted in their place, and after some functions, by the numbers of their first lines, there are copies of them."""
    lines = [planted.get(number, line) for number, line in enumerate(text.split("\n"))]
    for function in reversed(functions_of(text)):
        lines[function.end + 1 : function.end + 1] = copies.get(function.first, [])
        if function.name not in kept:
            # a function that calls none of its cycle stands in none
            if found := cycle_of(lines, function):
                lines[found[0]] = ""
            signature = lines[function.begin].removesuffix("}")
            lines[function.begin : function.end + 1] = [signature, function.margin + BODY, function.margin + "}"]
    return "\n".join(lines)


def root_of(folder):
    """The first file of the crate in a folder."""
    library = folder / "src" / "lib.rt"
    return library if library.is_file() else folder / "src" / "main.rt"


def put_stand_ins(folder, kept, planted, copies):
    """Puts stand-ins into a crate's folder for the bodies of all functions but those of these names, and plants lines and copies of
    functions, by their files."""
    for file in (folder / "src").rglob("*.rt"):
        name = str(file.relative_to(folder))
        file.write_text(with_stand_ins(file.read_text(), kept, planted.get(name, {}), copies.get(name, {})))
    (folder / "src" / "stand_in.rt").write_text(MODULE)
    with open(root_of(folder), "a") as root:
        root.write("\nmod stand_in;\n")
    for file in list((folder / "proofs").rglob("*.antt")):
        # the folder of a function that calls itself begins with a plus
        if file.name in PROOF_FILES and file.parent.name.removeprefix("+") not in kept:
            file.unlink()


def make_library(folder):
    """Makes a library of the program in a folder, without its `main`: of a program a check also reads all the code that is linked."""
    program = folder / "src" / "main.rt"
    if not program.is_file():
        return
    lines = program.read_text().split("\n")
    for function in functions_of("\n".join(lines)):
        if function.name == "main":
            del lines[function.first : function.end + 1]
            break
    (folder / "src" / "lib.rt").write_text("\n".join(lines))
    program.unlink()
