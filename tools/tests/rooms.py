"""A folder of files for each test, which is removed after it."""
import json
import os
import tempfile
import unittest


class Room(unittest.TestCase):
    def setUp(self):
        room = tempfile.TemporaryDirectory()
        self.addCleanup(room.cleanup)
        self.room = os.path.realpath(room.name)

    def write(self, path, text):
        """Writes one file: a text, or a value as JSON."""
        place = os.path.join(self.room, path)
        os.makedirs(os.path.dirname(place), exist_ok=True)
        with open(place, "w", encoding="utf-8") as file:
            file.write(text if isinstance(text, str) else json.dumps(text))

    def put(self, files):
        for path, text in files.items():
            self.write(path, text)
