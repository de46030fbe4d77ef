"""Tests that the recorder's C code asks its own printf (record/core/text.c) only for forms that it
knows: a compiler that checks forms knows more of them.
"""
import re
import unittest

from tests.support import TOP


CALL = re.compile(r"wire_up_text_add\(\s*[^,;]+,((?:[^;\"]|\"(?:\\.|[^\"\\])*\")*)\);")
STRING = re.compile(r"\"((?:\\.|[^\"\\])*)\"")
FORM = re.compile(r"%(?:%|[^a-zA-Z%]*[a-zA-Z]+?(?<![lzhjtqL]))")
# A percent sign; a text; a byte; a number, of some size, with zeros before it or without.
KNOWN = re.compile(r"%(?:%|s|c|(?:0[1-9][0-9]?)?(?:ll|l|z)?[dux])$")


def formats() -> list[tuple[str, str]]:
    """Each file of the recorder with each of its format strings."""
    found: list[tuple[str, str]] = []
    for path in sorted((TOP / "record").rglob("*.[ch]")):
        name = str(path.relative_to(TOP))
        for call in CALL.finditer(path.read_text(encoding="utf-8")):
            # Words that are told stand behind the format, and none of them has a percent sign.
            found += [(name, text) for text in STRING.findall(call.group(1)) if "%" in text]
    return found


class Forms(unittest.TestCase):
    """What the recorder's own printf is asked for."""

    def test_each_form_is_known(self) -> None:
        self.assertGreater(len(formats()), 30)
        for path, text in formats():
            for form in FORM.findall(text):
                self.assertRegex(form, KNOWN, f"{path}: {text}")

    def test_forms_that_it_cannot_do_are_refused(self) -> None:
        for form in ("%5u", "%.3f", "%p", "%-4d", "%08s", "%f", "%i", "%hd"):
            self.assertEqual(FORM.findall(form), [form])
            self.assertNotRegex(form, KNOWN)


if __name__ == "__main__":
    unittest.main()
