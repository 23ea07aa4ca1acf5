"""The program as the tools run it: proved where it is built, else compiled without its proofs."""
import functools
import json
import os
import subprocess
import sys

from parts import kit as kits
from parts import sites, unproved
from parts.words import NoGraph

# The statuses of docs/REPORT.md at which a report was written.
REPORT = 0
REASONS = {3: "a read failed", 4: "a write failed", 5: "memory ran out", -11: "it ended by a fault of memory, as where the stack ends",
           -6: "it stopped at a check", -4: "it stopped at a check", -9: "it was killed"}


class NoProgram(NoGraph):
    """There is no program, or it gave no report; why, in a line."""


def with_keys(bundle, **keys):
    """A bundle with further keys, which the second program knows."""
    return json.dumps({**json.loads(bundle), **keys}, ensure_ascii=False).encode("utf-8", "surrogatepass") if keys else bundle


class Program:
    reader = sites.Reader
    forms = {}  # the key of a bundle by which all forms are read, if they are

    def __init__(self, who):
        """The program: of a release, the proved one, or the same compiled without its proofs, which `who` reports."""
        self.who = who
        try:
            proved, second = kits.proved_program(), kits.proved_program(unproved.SECOND)
            self.proved = bool(proved and second)
            self.path = proved or (kits.release() or {}).get("program") or unproved.program(who)
        except (unproved.Failed, kits.NoKit, OSError) as failed:
            raise NoProgram(f"the program can't be compiled: {failed}") from failed

    @functools.cached_property
    def second(self):
        """The path of the second program, of which the same is true. Unproved it is in the same file, and runs by its name."""
        try:
            return kits.proved_program(unproved.SECOND) or (kits.release() or {}).get("second") or unproved.program(self.who)
        except (unproved.Failed, kits.NoKit, OSError) as failed:
            raise NoProgram(f"the program can't be compiled: {failed}") from failed

    def ran(self, words, data, is_second=False):
        """What one of the programs does with these arguments and this input."""
        name, path = (unproved.SECOND, self.second) if is_second else (self.path, self.path)
        return subprocess.run([name, *words], executable=path, input=data, stdout=subprocess.PIPE, check=False, env=os.environ)

    def answer(self, word, bundle, is_second):
        """The status, and what a program writes with this word for a bundle."""
        try:
            ran = self.ran([word], bundle, is_second)
        except OSError as error:
            raise NoProgram(f"the program can't be run: {error.strerror}") from error
        if ran.returncode not in (0, 1, 2):
            raise NoProgram(f"the program gave no report: {REASONS.get(ran.returncode, f'status {ran.returncode}')}")
        return ran.returncode, ran.stdout

    def report(self, bundle, has_choices=False):
        """The status, and what the program writes for a bundle, which may have the second program's keys."""
        return self.answer("build", bundle, has_choices)

    def policy(self, bundle, rules):
        """The status, and what the second program says of rules on the graph of a bundle."""
        return self.answer("policy", with_keys(bundle, policy=rules), True)

    def told(self, word, bundle, **keys):
        """The lines that the second program writes with this word for a bundle, which may get further keys."""
        status, said = self.answer(word, with_keys(bundle, **keys), True)
        if status:
            raise NoProgram(said.decode().strip())
        return said.decode().splitlines()

    def graph(self, settings, modules):
        """The status and the report of the graph of a bundle, by its modules and what else it has."""
        value = {**settings, "modules": modules}
        return self.report(json.dumps(value, ensure_ascii=False).encode("utf-8", "surrogatepass"), bool({"jsonWithoutAttribute", *sites.FORMS, "allForms"} & set(settings)))

    def which_are_read(self, specifier, texts):
        """Of each text whether it is a program of the grammar, as a module of this specifier's ending."""
        ending = specifier.rpartition("/")[2].partition(".")[2] or "js"
        names = [f"file:///{number}.{ending}" for number in range(len(texts))]
        modules = [{"specifier": name, "text": text} for name, text in zip(names, texts)]
        bundle = {"roots": names, **self.forms, "kind": "code", "limit": 1_000_000, "modules": modules}
        status, report = self.report(json.dumps(bundle).encode("utf-8", "surrogatepass"), bool(self.forms))
        if status:
            raise NoProgram(report.decode().strip())
        wanted = {f"{name} error Parse" for name in names}
        refused = {line for line in report.decode().split("\n") if line in wanted}
        return [f"{name} error Parse" not in refused for name in names]

    def stop_of(self, specifier, text):
        """The character, from 0, of the token at which reading stops; None where a part of the text is no token."""
        kind, place = self.fault_in(specifier, text)
        return len(text.encode("utf-8", "surrogatepass")[:place].decode("utf-8", "surrogatepass")) if kind == "Syntax" else None

    def kind_of(self, specifier, text):
        """The name of what is wrong with a text that is no program."""
        return self.fault_in(specifier, text)[0]

    def fault_in(self, specifier, text):
        """The name of what is wrong with a text, and its byte; None for both where nothing is."""
        name = "file:///module" + (sites.ending_of(specifier) or ".js")
        bundle = json.dumps({"roots": [name], **self.forms, "modules": [{"specifier": name, "text": text}]}).encode("utf-8", "surrogatepass")
        found = [line.split(" ") for line in self.told("faults", bundle) if line.startswith(f"fault {name} ")]
        return (found[0][2], int(found[0][3])) if found else (None, None)


def main():
    """Prints the path of the program."""
    try:
        print(Program("graph_tool").path)
    except NoProgram as error:
        print(f"graph_tool: {error}", file=sys.stderr)
        return 70
    except KeyboardInterrupt:
        print("graph_tool: stopped", file=sys.stderr)
        return 130
    return 0


if __name__ == "__main__":
    sys.exit(main())
