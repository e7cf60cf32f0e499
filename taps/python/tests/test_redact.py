import hashlib
import hmac
import json
import tempfile
import unittest
from pathlib import Path

from . import lab  # noqa: F401
from sioaudit_taps import Redactor, Tap, TapError, read_key

VECTORS = json.loads((Path(__file__).resolve().parents[2] / "redaction-vectors.json").read_text())


class Redaction(unittest.TestCase):
    def test_vectors(self):
        it = Redactor(VECTORS["key"].encode())
        for vector in VECTORS["vectors"]:
            self.assertEqual(getattr(it, vector["of"])(vector["in"]), vector["out"], vector)

    def test_by_definition(self):
        key = b"sixteen bytes, or more"
        it = Redactor(key)

        def h(text, digits=8):
            return hmac.new(key, text.encode(), hashlib.sha256).hexdigest()[:digits]

        self.assertEqual(it.hash("a"), h("a"))
        self.assertEqual(it.hash("é€😀 and so"), h("é€😀 and so", 10))
        self.assertEqual(it.message('42["a",{"b":[1.50]},"1-0"]'), f'42["{h("a")}",{{"{h("b")}":[1.50]}},"1-0"]')
        token = '"\\u00e9"'
        self.assertEqual(it.packet(f'2[{token},"é","1-0"]'), f'2["{h(token)}","{h("é")}","1-0"]')
        self.assertEqual(it.message('40{"sid":"S","pid":""}'), f'40{{"sid":"{h("S")}","pid":"{h("")} "}}')
        self.assertEqual(it.message("42[1e400]"), f'42["{h("2[1e400]", 8)}')

    def test_long(self):
        it = Redactor(b"x" * 16)
        text = json.dumps(["x\\\"é" * 50_000, {"a": ["b"] * 50_000}, "1-0"], ensure_ascii=False, separators=(",", ":"))
        made = json.loads(it.packet(f"2{text}")[1:])
        self.assertEqual((len(made[0]), made[2]), (32, "1-0"))
        self.assertEqual(it.packet('2["' + "\\" * 100_001)[:3], '2["')

    def test_keys(self):
        with tempfile.TemporaryDirectory() as to:
            file = Path(to) / "key"
            file.write_bytes(b"0123456789abcdef\n\n")
            self.assertEqual(read_key(file), b"0123456789abcdef\n")
            with self.assertRaises(TapError) as refused:
                read_key(Path(to) / "none")
            self.assertEqual(refused.exception.code, "Key")
            for key in (b"0123456789abcde", "0123456789abcdef"):
                for made in (lambda: Redactor(key), lambda: Tap("c1", "client", dir=to, redact=key)):
                    with self.assertRaises(TapError) as refused:
                        made()
                    self.assertEqual(refused.exception.code, "Key")
            self.assertEqual([it.name for it in Path(to).iterdir()], ["key"])
