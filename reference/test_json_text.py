import unittest

import json_text


class JsonTexts(unittest.TestCase):
    def test_texts_are_accepted(self):
        for text in (b"1", b" [1 , 2]\t\r\n", b'"\\u00e9\\ud83d\\ude00\\/"', b"-0", b"0e99999", b"1e-99999", b'{"a":1,"a":2}',
                     b"[" * 127 + b"]" * 127, b'"\x7f"', '"é"'.encode(), b"9" * 300):
            json_text.parse(text)

    def test_what_is_no_json_is_refused(self):
        for text in (b"", b" ", b"01", b"1.", b".5", b"+1", b"-", b"1e", b"1e999", b"-1e999", b"[1,]", b"{,}", b'{"a":1,}',
                     b'{"a" 1}', b"{a:1}", b"'a'", b"nul", b"nullx", b"tru", b"True", b'"\\ud800"', b'"\\udc00"',
                     b'"\\ud800\\u0041"', b'"\\x"', b'"a\nb"', b'"', b'"\\', b"\xef\xbb\xbf1", b'"\xff"', b'"\xed\xa0\x80"',
                     b"1 2", b"[" * 128 + b"]" * 128, b"\x0b1", b"\xc2\xa01", b"NaN", b"Infinity", b"9" * 400, b"//x\n1",
                     b"1,", b'["a":1]', b"]", b"1\x00"):
            with self.subTest(text[:20]):
                self.assertRaises(json_text.NotJson, json_text.parse, text)

    def test_only_numerals_below_two_to_the_64_are_numbers(self):
        self.assertEqual(json_text.parse(b"18446744073709551615"), 2 ** 64 - 1)
        for text in (b"18446744073709551616", b"-0", b"-1", b"1.0", b"1e0", b"0.0", b"true", b"null"):
            self.assertIsInstance(json_text.parse(text), json_text.OtherValue)

    def test_of_two_equal_keys_the_last_one_counts(self):
        self.assertEqual(json_text.parse(b'{"a":1,"a":2}'), {"a": 2})


if __name__ == "__main__":
    unittest.main()
