"""The proof of an export: what it is passed, what it says, and how its own code makes the call. The rest is proved once, in
crates/eevdf_c/proofs/Exported.antt."""

import re

from exports import Number, Pointer

I64 = "i64"
KINDS = {"u64": "unsigned", "i64": "signed"}
GET, BY_REFERENCE = "sets ! (of_opd ! (get ! refl)) refl (tt, tt)", "sets ! (addr ! (through ! refl (stop !))) refl (tt, tt)"

TEXT = """\
abbrev ks : List Passed
ks = {passed}

abbrev says : Contract_of ks {answer}
says N {ghost} = {lets}record {{
  after = λ r. {after};
  answer = λ r. {answered};
  others = λ r ws. {others};
}}

pub {name}_spec : {{M : Type 1}} → statement M
{name}_spec 𝓤 𝓛 𝓜 𝓡 wired = exported 𝓛 ks {answer} says 𝓜 𝓡 {shared}
    export.Key.name code.function (code.unfolded 𝓤 𝓛.H 𝓜 𝓡 wired) call.Key.name
    (λ bs ns g ls. met 𝓤 𝓛 𝓜 𝓡 (code.calls-{crate}::calls::{call} 𝓡.env wired) ((lifetimes ks ls, wholes ks, tt, references ks bs ns g ls, stored ks bs ns ls), tt))
    (λ bs ns fit fm Q. enter ! _ _ _ _ _ $ alloc_all ! (λ l. pass_all ! refl fit $
    {made} $
    calls_on ! fm {answer} (passed ks bs ns) Q {read} (λ v lands.
    {landed} $ returns ! (look_at ! 0 refl) $ free_all ! refl $ done !)))
"""


def at(i):
    """The field of entry i of a pair nested to the right."""
    return ".1" * i + ".0"


def tuple_of(items):
    """A pair nested to the right that ends in `tt`."""
    text = "tt"
    for it in reversed(items):
        text = f"({it}, {text})"
    return text


def bare(text):
    """A term without the parentheses round all of it."""
    return text[1:-1] if re.fullmatch(r"\((?:[^()]|\([^()]*\))*\)", text) else text


def listed(items):
    return " ∷ ".join([*(f"({it})" if " " in it else it for it in items), "[]"])


class Proof:
    def __init__(self, export, crate):
        self.export, self.crate = export, crate
        self.numbers = [p for p in export.params if isinstance(p, Number)]
        self.pointers = [p for p in export.params if isinstance(p, Pointer)]
        self.altered = [p for p in self.pointers if p.is_mut]
        self.rows = {p.pointee: I64 if p.pointee == I64 else f"{p.pointee}-row" for p in self.pointers}

    def text(self):
        export = self.export
        answered = [text for name, text in export.facts if name == "answer"]
        others = [self.in_call(text) for name, text in export.facts if name != "answer"]
        read = "(no_more !)"
        for _ in export.params:
            read = f"(and_then ! (get ! refl) {read})"
        landed = "lands_as ! refl refl lands"
        if not export.is_answered:
            landed = "lands_as ! lands refl (tt, tt) $ sets ! (of_opd ! (unit_lit !)) refl (tt, tt)"
        return TEXT.format(
            name=export.name,
            crate=self.crate,
            call=export.call,
            ghost=export.ghost,
            passed=" ∷ ".join([*map(self.kind, export.params), "[]"]),
            answer="a_code" if export.is_answered else "nothing_told",
            lets="".join(f"let {p.name} = N{at(i)} in " for i, p in enumerate(self.numbers)),
            after=tuple_of([bare(p.after) for p in self.altered]),
            answered=listed(answered),
            others=listed(others),
            shared=tuple_of([f"{p.pointee}-laws.shares 𝓛" for p in self.pointers if not p.is_mut]),
            made=" $ ".join(step for p in self.pointers for step in [GET] * p.is_cast + [BY_REFERENCE]),
            read=read,
            landed=landed,
        )

    def kind(self, p):
        """What a parameter is passed as."""
        if isinstance(p, Number):
            return f"number {KINDS[p.type]}"
        return f"{'lent' if p.is_mut else 'shown'} {self.rows[p.pointee]}"

    def in_call(self, text):
        """A fact as the call says it: of what it leaves behind a `&mut`, where the export names the value."""
        for i, p in enumerate(self.altered):
            text = text.replace(p.after, f"ws{at(i)}")
        return text
