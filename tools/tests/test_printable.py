"""Text that terminals and pages show."""

import io
import sys
import unittest
from unittest import mock

from crashfs_tools.common.command import LINE_CHARACTERS, print_line
from crashfs_tools.common.pages import html_text
from crashfs_tools.common.printable import escape_unprintable, folded_lines
from crashfs_tools.common.streams import set_utf8_streams


class Printable(unittest.TestCase):
    def test_what_controls_a_terminal_is_an_escape(self):
        for shown, wanted in [
            ('\x1b]0;owned\x07', '\\x1b]0;owned\\x07'),
            ('a\nb\tc\r', 'a\\nb\\tc\\r'),
            ('\x9b31m\x7f', '\\x9b31m\\x7f'),
            ('to \u202etxt.exe', 'to \\u202etxt.exe'),
            ('a\u200bb\u2066\ufeff', 'a\\u200bb\\u2066\\ufeff'),
            ('\u2028\U000e0041', '\\u2028\\U000e0041'),
            ('caf\udcff', 'caf\\xff'),
        ]:
            self.assertEqual(escape_unprintable(shown), wanted)

    def test_letters_of_any_language_and_what_is_allowed_stay(self):
        for text in ['Zürich', '東京', 'שלום', '👍', '\ufffd', 'a\\n b']:
            self.assertEqual(escape_unprintable(text), text)
        self.assertEqual(escape_unprintable('a\n\tb\x1b', '\n\t'), 'a\n\tb\\x1b')

    def test_lines_are_folded_and_words_are_broken_only_if_they_may_be(self):
        word = 'a-' * 75
        self.assertEqual(folded_lines([word], '  '), [f'  {word}'])
        broken = ['  ' + 'a-' * 49, '    ' + 'a-' * 26]
        self.assertEqual(folded_lines([word], '  ', may_break_words=True), broken)
        words = ' '.join(['word'] * 30)
        folded = ['- ' + ' '.join(['word'] * 19), '-   ' + ' '.join(['word'] * 11)]
        self.assertEqual(folded_lines([words, '', ' ', 'a\x1b b '], '- '), [*folded, '- a\\x1b b'])

    def test_html_has_each_character_of_a_text_and_no_tag(self):
        self.assertEqual(html_text('<b>\n\x1b"&'), '&lt;b&gt;\\n\\x1b&quot;&amp;')
        self.assertEqual(html_text('a\n\tb\x1b', '\n\t'), 'a\n\tb\\x1b')

    def test_a_line_has_an_end_however_long_a_number_is(self):
        path = '/'.join(['n' * 255] * 16)
        for text, length in ((f'{path}: too long', None), ('no JSON: ' + '9' * 5_000_000 + '!', 1)):
            with mock.patch('sys.stderr', io.StringIO()) as printed:
                print_line('crashfs-check', text)
            line = printed.getvalue()
            if length is None:
                self.assertEqual(line, f'crashfs-check: {text}\n')
            else:
                self.assertLess(len(line), LINE_CHARACTERS + 100)
                self.assertTrue(line.startswith('crashfs-check: no JSON: 999'))
                self.assertTrue(line.endswith('99!\n'))

    def test_output_is_utf_8_in_any_locale(self):
        for encoding in ('ascii', 'iso8859-1'):
            printed = io.BytesIO()
            stream = io.TextIOWrapper(printed, encoding=encoding)
            with mock.patch.object(sys, 'stdout', stream):
                set_utf8_streams()
                print('東京 \udcff', end='', file=sys.stdout, flush=True)
            self.assertEqual(printed.getvalue(), '東京 \\udcff'.encode())


if __name__ == '__main__':
    unittest.main()
