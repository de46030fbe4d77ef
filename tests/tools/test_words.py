"""Tests how names, keys and values of a plan are spelled."""
import unittest

from wire_up_tools import words
from wire_up_tools.words import Words


class SpellingTest(unittest.TestCase):
    """Words, and what stands for what isn't one."""

    def test_escape(self) -> None:
        self.assertEqual(words.escape(b"a b%c\xff"), "a%20b%25c%FF")
        self.assertEqual(words.escape(b"a:b", b":"), "a%3Ab")

    def test_show(self) -> None:
        self.assertEqual((words.show(b"a b\n"), words.show(b"")), ("a b%0A", "(empty)"))

    def test_make_printable(self) -> None:
        self.assertEqual(words.make_printable("a b\tä\x7f"), "a b???")

    def test_reserved_words(self) -> None:
        for word, is_reserved in (("pmix.x", True), ("PMIX_x", True), ("Pmix", False)):
            with self.subTest(word):
                self.assertEqual(words.is_reserved(word), is_reserved)
                self.assertEqual(words.is_plain(word.encode()), not is_reserved)
        self.assertFalse(words.is_plain(b"*"))

    def test_words_stand_for_themselves(self) -> None:
        found = Words([b"a", b"b", b"x" * 63])
        self.assertEqual((found[b"a"], found[b"x" * 63], found.renamed), ("a", "x" * 63, []))

    def test_texts_that_are_no_words(self) -> None:
        """Each has a word of its own."""
        texts = [b"a%20b", b"a b", b"", b"x" * 64, b"x" * 65, b"*"]
        found = Words(texts, is_fit=words.is_plain)
        self.assertEqual(found.renamed, sorted(set(texts) - {b"a%20b"}))
        self.assertEqual([found[text] for text in texts[:3]], ["a%20b", "a%20b~2", "%"])
        self.assertEqual([found[text] for text in texts[3:]], ["x" * 63, "x" * 61 + "~2", "%2A"])
        self.assertEqual(len({found[text] for text in texts}), len(texts))

    def test_bytes_that_words_cannot_have(self) -> None:
        self.assertEqual(Words([b"a:b"], b":")[b"a:b"], "a%3Ab")


if __name__ == "__main__":
    unittest.main()
