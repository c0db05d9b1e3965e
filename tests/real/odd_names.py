"""File names with the bytes that a manifest, a shell or a build tool treats in its own way."""
from __future__ import annotations

ODD = [
    "two words", "it's", 'quo"te', "dol$lar", "$", "ha#sh", "#first", "am&per", "é", "日本", "(round)", "plus+", "at@", "per%cent", "eq=ual",
    "com,ma", "til~de", "~first", "bang!", "[square]", "{curly}", "back`tick", "pi|pe", "a:b", "star*", "what?", "<less>", "^", "-dash",
    "two  blanks", "$in", "${out}", "$$", "dot.", "a$ b$:c", "semi;colon", "back\\slash"]


def but(*parts: str) -> list[str]:
    """Returns the odd names without those that a tool refuses, or writes as ninja can't read them."""
    return [name for name in ODD if not any(part in name for part in parts)]
