"""The door's addresses of names: those that contain a text, and those that can't be opened."""
from unittest import mock

from over import Over
from rooms_services.door.folders import find, walk


class Find(Over):
    def setUp(self) -> None:
        super().setUp()
        self.room.make(f=None, f__g=None)
        for name in ("Brief Müller.odt", "brief", "Rechnung"):
            self.room.objects["f", "g", name] = b""

    def _found(self, query: str, at: str = "") -> object:
        status, told = self.told(f"/door/find/{at}?{query}")
        assert status == 200 and isinstance(told, dict)
        return [one["path"] for one in told["found"]]

    def test_names(self) -> None:
        self.assertEqual(self._found("BRIEF"), ["/f/g/Brief Müller.odt", "/f/g/brief"])
        # ü as one letter, and as u with its two points.
        for text in ("m%C3%BCller", "MU%CC%88LLER"):
            self.assertEqual(self._found(text), ["/f/g/Brief Müller.odt"])
        self.assertEqual(self._found("g", "f/g"), ["/f/g/Rechnung"])
        self.assertEqual(self._found("%20"), ["/f/g/Brief Müller.odt"])
        self.assertEqual(self.told("/door/find/?g%25"), (200, {
            "all": True, "at": "/", "found": [], "unlisted": []}))

    def test_as_far_as_one_may_see(self) -> None:
        self.room.denied.add(("bob", "/f/g", "r"))
        self.assertEqual(self.told("/door/find/?brief", "bob"), (200, {
            "all": True, "at": "/", "found": [], "unlisted": ["/f/g"]}))
        self.assertNotIn("bob GET /folder/f/g", self.room.seen)

    def test_too_many(self) -> None:
        for number in range(1001):
            self.room.objects["f", f"many{number}"] = b""
        _, told = self.told("/door/find/?many")
        assert isinstance(told, dict)
        self.assertEqual((told["all"], len(told["found"])), (False, find.MOST_FOUND))

    def test_too_many_in_the_last_folder(self) -> None:
        """What was asked for is all there, and still more names fit than are told."""
        for number in range(find.MOST_FOUND + 1):
            self.room.objects["f", "g", f"last{number}"] = b""
        _, told = self.told("/door/find/f/g?last")
        assert isinstance(told, dict)
        self.assertEqual((told["all"], len(told["found"])), (False, find.MOST_FOUND))
        del self.room.objects["f", "g", "last0"]
        _, told = self.told("/door/find/f/g?last")
        assert isinstance(told, dict)
        self.assertEqual((told["all"], len(told["found"])), (True, find.MOST_FOUND))

    def test_texts(self) -> None:
        for query in ("", "%00", "%0A", "%FF", "x" * 256):
            self.assertEqual(self.told(f"/door/find/?{query}"), (400, {"why": "bad-query"}))
        self.assertEqual(self.told("/door/find/"), (400, {"why": "bad-query"}))
        self.assertEqual(self.told("/door/closed/f?x"), (400, {"why": "bad-query"}))


class Closed(Over):
    def setUp(self) -> None:
        super().setUp()
        self.room.make(f=None, f__a=b"", f__b=b"", f__g=None, f__h=None, f__i=None)

    def test_what_is_closed(self) -> None:
        """A folder that one passes through leads somewhere, and one that can be listed too."""
        self.room.denied |= {("bob", "/f/b", "r"), ("bob", "/f/g", "r"), ("bob", "/f/g", "x"),
                             ("bob", "/f/h", "r"), ("bob", "/f/i", "x")}
        self.assertEqual(self.told("/door/closed/f", "bob"),
                         (200, {"at": "/f", "closed": ["b", "g"]}))
        self.assertEqual(self.told("/door/closed/f"), (200, {"at": "/f", "closed": []}))
        self.assertEqual([one for one in self.room.seen if "GET /doc/" in one
                          or "GET /folder/f/" in one], [])

    def test_nobody_passes(self) -> None:
        self.room.denied.add(("bob", "/f", "x"))
        self.assertEqual(self.told("/door/closed/f", "bob"),
                         (200, {"at": "/f", "closed": ["a", "b", "g", "h", "i"]}))

    def test_as_the_room_says(self) -> None:
        self.room.denied.add(("bob", "/f", "r"))
        self.assertEqual(self.told("/door/closed/f", "bob")[0], 403)
        self.assertEqual(self.told("/door/closed/f/a"), (409, {"at": "/f/a", "why": "wrong-kind"}))
        with mock.patch.object(walk, "MOST", 1):
            self.assertEqual(self.told("/door/closed/f"), (413, {"why": "too-many"}))
        with mock.patch.object(walk, "SECONDS", -1.0):
            self.assertEqual(self.told("/door/closed/f"), (413, {"why": "too-long"}))
