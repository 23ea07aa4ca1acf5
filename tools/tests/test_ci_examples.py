"""The steps of examples/ci as shell, in a repository of two commits."""
import json
import os
import re
import subprocess
import tempfile
import unittest

ROOT = os.path.dirname(os.path.dirname(os.path.dirname(os.path.abspath(__file__))))


def text_of(name):
    with open(os.path.join(ROOT, "examples", "ci", name), encoding="utf-8") as file:
        return file.read()


def steps_of_github():
    """The shell of each step with `run: |`, by its name."""
    return {name: re.sub(r"(?m)^ {10}", "", shell) for name, shell in re.findall(r"- name: (.*)\n(?:(?! *- ).*\n)*? {8}run: \|\n((?: {10}.*\n)+)", text_of("github.yml"))}


class Steps(unittest.TestCase):
    def setUp(self):
        room = tempfile.TemporaryDirectory()
        self.addCleanup(room.cleanup)
        self.room = os.path.join(room.name, "work")
        os.makedirs(os.path.join(self.room, "src"))
        commands = os.path.join(room.name, "bin")
        os.mkdir(commands)
        os.symlink(os.path.join(ROOT, "joravelsu"), os.path.join(commands, "joravelsu"))
        who = {f"GIT_{role}_{key}": "t@example.com" for role in ("AUTHOR", "COMMITTER") for key in ("NAME", "EMAIL")}
        self.environment = {**os.environ, **who, "PATH": commands + os.pathsep + os.environ["PATH"], "JORAVELSU_QUIET": "1", "GIT_CONFIG_GLOBAL": os.devnull}
        self.put("src/main.ts", "import './a.ts'")
        self.put("src/a.ts", "")
        self.put("package.json", "{}")
        self.run_shell("git init -q -b main && git add -A && git commit -qm one && git clone -q --bare . ../hub && git remote add origin \"$PWD/../hub\"")

    def put(self, path, text):
        with open(os.path.join(self.room, path), "w", encoding="utf-8") as file:
            file.write(text)

    def run_shell(self, shell, wanted=0, **more):
        done = subprocess.run(["bash", "-e", "-c", shell], cwd=self.room, env={**self.environment, **more}, capture_output=True, text=True, check=False)
        self.assertEqual(done.returncode, wanted, done.stderr)
        return done.stdout

    def test_github(self):
        steps = steps_of_github()
        self.assertEqual(list(steps), ["Faults and cycles, next to their lines", "The same for code scanning", "What a change adds to the graph and takes from it"])
        check, scan, change = steps.values()
        self.assertEqual(self.run_shell(check), "")
        base = self.run_shell("git rev-parse HEAD").strip()
        self.put("src/a.ts", "import './main.ts'; import './gone.ts'")
        self.assertEqual([line.split(" ")[0] for line in self.run_shell(check, 1).splitlines()], ["::error", "::error"])
        self.run_shell(scan)
        with open(os.path.join(self.room, "joravelsu.sarif"), encoding="utf-8") as file:
            self.assertEqual([result["ruleId"] for result in json.load(file)["runs"][0]["results"]], ["Missing", "cycle"])
        self.assertIn("+ src/gone.ts: error Missing", self.run_shell(change, BASE=base))

    def test_gitlab(self):
        steps = re.findall(r"(?m)^    - (joravelsu .*)$", text_of("gitlab.yml"))
        self.assertEqual(len(steps), 3)
        for step in steps:
            self.run_shell(step)
        self.put("src/a.ts", "import './main.ts'")
        self.assertEqual([self.run_shell(step, wanted) is not None for step, wanted in zip(steps, (0, 0, 1))], [True] * 3)
        with open(os.path.join(self.room, "modules.json"), encoding="utf-8") as file:
            self.assertEqual(json.load(file)["found"], ["cycle"])


if __name__ == "__main__":
    unittest.main()
