"""What the documents show of the sources is there."""

import unittest

import support  # noqa: F401

import check_documents


class Documents(unittest.TestCase):
    def test_the_page_of_the_library_shows_the_example(self):
        self.assertEqual(list(check_documents.wrong_examples()), [])


if __name__ == "__main__":
    unittest.main()
