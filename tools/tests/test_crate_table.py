"""The table of crates comes from crates.txt and from what the crates say of themselves."""

import unittest

import support  # noqa: F401

import crate_table

LIST = "# About the list.\n\n# Layer: base\nlow:\nhigh: low\n\n# Layer: top\nprogram: high low\nffi staticlib: low\n"
PAGE = "# Page\n\n" + crate_table.HEAD + "| old | row |\n\nText.\n"


class CrateTable(unittest.TestCase):
    def test_layers_are_the_comments_of_the_list(self):
        layers = crate_table.layers_of(LIST)
        self.assertEqual(
            layers,
            [
                ("base", [("low", []), ("high", ["low"])]),
                ("top", [("program", ["high", "low"]), ("ffi", ["low"])]),
            ],
        )

    def test_the_table_takes_the_place_of_the_old_one(self):
        self.assertEqual(
            crate_table.page_with(crate_table.HEAD + "| a | b |\n", PAGE), PAGE.replace("old | row", "a | b")
        )

    def test_a_crate_before_one_that_it_needs_is_found(self):
        found = list(crate_table.out_of_order([("base", [("high", ["low"]), ("low", [])])]))
        self.assertEqual(found, ["high stands before low"])

    def test_a_crate_that_is_listed_and_not_named_is_found(self):
        texts = {
            "low": "",
            "high": "use low::Row;",
            "program": "use high::run;",
            "ffi": "ghost use Rattle.low.specs.Row",
        }
        found = list(crate_table.unnamed(crate_table.layers_of(LIST), texts.get))
        self.assertEqual(found, ["program lists low, and does not name it"])

    def test_the_repository_agrees_with_its_list(self):
        self.assertEqual(list(crate_table.wrong()), [])


if __name__ == "__main__":
    unittest.main()
