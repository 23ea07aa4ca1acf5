"""One run of ./joravelsu: the folder of the project, its bundle, the program, the report and its graph."""
import argparse
import functools
import os
import sys

from parts import builder, config, kit, packing, project, records, resolve
from parts.words import Wrong, plain
from parts.words import say as said


def say(line):
    said("joravelsu", line)


def relative(path):
    return None if path is None else os.path.relpath(path)


def front_of(folder):
    """What stands in front of a path from the folder, so that it is one from here."""
    path = os.path.relpath(folder)
    return "" if path == "." else path + "/"


def without_row(module):
    return {key: value for key, value in module.items() if key != "row"}


def made_program(loader=None):
    """The library, or the program where there is no library; that it is unproved is said."""
    made = builder.found(loader)
    if not made:
        from parts import program

        made = program.Program("joravelsu")
    if not made.proved:
        kit.say_unproved("joravelsu")
    return made


def rules_of(path):
    """The rules of a file, if one is named."""
    if not path:
        return None
    from parts import policy

    return policy.Policy(path)


class Run:
    """One run over a project."""

    def __init__(self, asked, choices, by_program=False):
        """by_program: what is asked of the graph the second program tells, of a bundle, which the library has none of."""
        self.asked = asked
        self.paths = []
        self.configure(choices)
        self.rules = rules_of(getattr(asked, "policy", None))
        asked.loader = "program" if self.rules or by_program else asked.loader
        asked.roots = list(self.roots(asked.roots or [asked.folder or project.named_above(os.getcwd())]))
        # Further forms are edges of the second program's graphs alone, and it alone reads all forms.
        self.program = made_program("program" if any(getattr(asked, packing.CHOICES[key]) for key in packing.OF_SOURCES) else asked.loader)
        self.program.forms = {"allForms": True} if asked.all_forms else {}
        packer, roots = self.packed()
        self.choices = packer.choices
        self.front = front_of(asked.folder)
        self.reasons = packer.reasons
        asked.files = [os.path.join(asked.folder, place) for place in sorted(packer.taken)] if getattr(asked, "watch", False) else []
        packer.tell()
        if packer.reader.reads_ahead:
            self.data = packer.bundle(roots).encode()
            packer.refuse_size(len(self.data))
            status, self.report = self.program.report(self.data, packer.has_choices)
        else:
            modules = packer.modules()
            settings = packer.settings(roots, len(modules))
            status, self.report = self.program.kept_graph(settings, modules, packer.reader.records) if packer.reader.records else self.program.graph(settings, modules)
            if asked.check_cache and self.program.graph(settings, [without_row(it) for it in modules]) != (status, self.report):
                raise Wrong("the graph of what is cached isn't the graph of the files")
        if status:
            raise Wrong(f"there is no graph: {self.report.decode().strip()}")
        if self.rules:
            asked.files.append(asked.policy)
            self.rules.ask(self.program, self.data)
        self.packer = packer

    @functools.cached_property
    def bundle(self):
        from parts import bundles

        return bundles.Bundle.of_contents(self.packer.by_specifier)

    @functools.cached_property
    def graph(self):
        from parts import report

        return report.graph_of(self.report)

    def configure(self, choices):
        """Takes what joravelsu.json says, and then what is said where nothing is."""
        asked = self.asked
        if asked.config is None:
            paths = [project.path_of(root) for root in asked.roots]
            start = next((path for path in paths if path), os.getcwd())
            asked.config = relative(config.file_above(start if os.path.isdir(start) else os.path.dirname(start)))
        if asked.config not in (None, "none"):
            config.take(asked, asked.config, choices)
        if asked.fail_on is None:
            asked.fail_on = asked.usual_fail_on

    def roots(self, named):
        """The roots: paths of files, those that a folder names, and URLs."""
        ways = resolve.Ways(self.asked.conditions, self.asked.browser, self.asked.kind == "types")
        for root in named:
            path = project.path_of(root)
            if path is None:
                yield root
            elif os.path.isdir(path):
                found, what = project.roots_in(path, ways)
                say(f"the root is {', '.join(plain(os.path.relpath(it)) for it in found)} ({what})")
                self.paths += [os.path.dirname(it) for it in found]
                yield from found
            else:
                self.paths.append(os.path.dirname(path))
                yield path

    def packed(self):
        """The packer of the project's folder: of a greater one where a specifier leads out of it and there is one."""
        folders = [os.path.abspath(self.asked.folder)] if self.asked.folder else project.folders_of(self.paths)
        for number, folder in enumerate(folders):
            kept = None if self.asked.no_cache else records.Records(self.program, folder, [key for key in packing.OF_SOURCES if getattr(self.asked, packing.CHOICES[key])])
            packer, roots = packing.packed(self.settled(folder), self.program.reader(self.program, kept, self.asked.check_cache), sys.stderr)
            if kept:
                kept.save()
            if not packer.leads_out or number == len(folders) - 1:
                break
            say(f"{plain(packer.leads_out[0])} leads out of {plain(os.path.relpath(folder))}: {plain(os.path.relpath(folders[number + 1]))} is packed instead")
        return packer, roots

    def settled(self, folder):
        """What is asked, over a folder and its settings."""
        asked = argparse.Namespace(**vars(self.asked))
        common = os.path.commonpath(self.paths) if self.paths else folder
        asked.folder = self.asked.folder = os.path.relpath(folder)
        if asked.tsconfig is None:
            asked.tsconfig = relative(project.settings_above(common, folder, project.TSCONFIGS))
        deno = project.settings_above(common, folder, project.DENO) if asked.deno is None else asked.deno
        asked.deno = None if deno in (None, "none") else os.path.relpath(deno, folder).replace(os.sep, "/")
        # Deno asks for the attribute, bundlers don't.
        asked.json_without_attribute = asked.deno is None
        asked.tsconfig = None if asked.tsconfig == "none" else asked.tsconfig
        has_package = any(project.settings_above(at, folder, ("package.json",)) for at in self.paths)
        asked.packages = asked.packages or has_package or os.path.isdir(os.path.join(folder, "node_modules"))
        return asked
