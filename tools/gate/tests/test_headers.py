"""What `headers` writes into the page of the calls of C, and what it finds wrong there."""

from gate import headers
from gate.tests import Small

HEADER = """enum mintlintel_code {
    MINTLINTEL_EMPTY = 0, /* the sector was empty */
    MINTLINTEL_DONE = 0,  /* the call is done */
    MINTLINTEL_BAD = 101  /* luns: 1 to MAX_LUNS */
};

uint32_t mintlintel_one_read(struct mintlintel_one *handle, uint32_t sector, uint8_t *out,
                             size_t bytes);
const char *mintlintel_version(void);
"""
DURABLE = "enum mintlintel_durable_code {\n    MINTLINTEL_GONE = 28 /* the power is gone */\n};\n"
CALLS = "| Call | Codes | What it does |\n|---|---|---|\n| `mintlintel_one_read({})`, `mintlintel_one_read(h, ..)` | 0, 1 | as it is |\n\n"
CODES = """| 0 | `MINTLINTEL_EMPTY`, `MINTLINTEL_DONE` | the sector was empty; the call is done |
| 28 | `MINTLINTEL_GONE` | the power is gone |
| 101 | `MINTLINTEL_BAD` | `luns`: 1 to `MAX_LUNS` |
"""


class Headers(Small):
    def setUp(self):
        super().setUp()
        self.write("bindings/include/mintlintel.h", HEADER)
        self.write("bindings/include/mintlintel_durable.h", DURABLE)
        self.page = self.write(headers.PAGE, CALLS.format("h, what") + headers.HEAD + "| 0 | old | old |\n\nThe end, of `mintlintel_one_read(h)`.\n")

    def test_the_page_has_the_codes_and_the_arguments(self):
        self.assertIn("docs/LINKING.md differs", self.run_main(headers, status=1))
        self.run_main(headers, "--write")
        self.assertEqual(self.page.read_text(), CALLS.format("h, sector, out, bytes") + headers.HEAD + CODES + "\nThe end, of `mintlintel_one_read(h)`.\n")
        self.assertIn("has the 3 codes", self.run_main(headers))
        self.write("bindings/include/mintlintel_durable.h", DURABLE.replace("is gone", "was cut"))
        self.assertIn("docs/LINKING.md differs", self.run_main(headers, status=1))

    def test_a_call_that_no_header_has_is_named(self):
        self.page.write_text(self.page.read_text().replace("one_read(h, ..)", "one_reads(h, ..)"))
        self.assertEqual(self.run_main(headers, status=1), "docs/LINKING.md: no header has mintlintel_one_reads\n")
