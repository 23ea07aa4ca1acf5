"""Each tool says with --help what it is for."""
import os
import subprocess
import unittest

ROOT = os.path.dirname(os.path.dirname(os.path.dirname(os.path.abspath(__file__))))
FOLDERS = ("", ".ci", "bench", "tools")


def tools():
    """The executable files of these folders, as paths from the root."""
    paths = [os.path.join(folder, name) for folder in FOLDERS for name in sorted(os.listdir(os.path.join(ROOT, folder)))]
    return [path for path in paths if os.path.isfile(os.path.join(ROOT, path)) and os.access(os.path.join(ROOT, path), os.X_OK)]


class Help(unittest.TestCase):
    def test_each_tool_has_it(self):
        self.assertIn("joravelsu", tools())
        for path in tools():
            ran = subprocess.run([os.path.join(ROOT, path), "--help"], stdin=subprocess.DEVNULL, capture_output=True, text=True, timeout=60, check=False)
            self.assertEqual((ran.returncode, ran.stderr), (0, ""), path)
            self.assertTrue(ran.stdout.strip(), path)


if __name__ == "__main__":
    unittest.main()
