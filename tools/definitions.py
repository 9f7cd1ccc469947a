#!/usr/bin/env python3
"""Prints what a reader of a contract must believe: for each clause of a public call the definitions of the
repository's specs/ that it rests on, transitively, with their lines.

    tools/definitions.py [CRATE [CALL [CLAUSE]]]

Without arguments: a line for each clause of each public call, with how many definitions and lines of definitions
it rests on. With a crate, a call or a clause: the definitions themselves, each with its file, first line and number of
lines. Comments and imports don't count."""
import os
import re
import sys

ROOT = os.path.join(os.path.dirname(os.path.abspath(__file__)), "..", "crates")
NAME = r"[^\W\d][\w'-]*"
USE = re.compile(r"^\s*(?:ghost\s+)?(?:pub\s+)?use\s+([\w.]+?)(?:\.\{([^}]*)\})?(?:\s+as\s+(\w+))?\s*;?\s*$")
OPENS = re.compile(r"^(\s*)(?:abbrev |unfoldable |pub )*(?:(data|record) )?(?:(" + NAME + r"|◌\S*)\s.*:.*|(mutual))$")
KEYWORD = re.compile(r"^\s*(abbrev|unfoldable|pub|data|record|mutual)\b")


class Definition:
    def __init__(self, module, name, path, line, indent, holds):
        self.module, self.name, self.path, self.line = module, name, path, line
        self.indent, self.holds = indent, holds
        self.text = []

    def has(self, line):
        """Whether the line belongs to this record, data type or group, since it stands further in."""
        return self.holds and len(line) - len(line.lstrip()) > self.indent

    def lines(self):
        return len(self.text)


class Module:
    def __init__(self):
        self.names = {}     # a name in scope: (module, name)
        self.modules = {}   # a module in scope: its path
        self.own = {}       # what the module defines


def add_import(module, line):
    found = USE.match(line)
    if not found:
        return False
    path, items, alias = found.groups()
    if items is None:
        module.modules[alias or path.split(".")[-1]] = path
        return True
    for item in filter(None, (x.strip() for x in items.split(","))):
        name, _, other = item.partition(" as ")
        module.names[other.strip() or name.strip()] = (path, name.strip())
    return True


def read_module(path, name):
    module, current = Module(), None
    for number, line in enumerate(open(path, encoding="utf-8"), 1):
        line = line.rstrip("\n")
        text = line.strip()
        if not text or text.startswith("--") or add_import(module, line) or text.startswith(("pub mod ", "mod ")):
            continue
        if text.startswith("module "):
            current = None
            continue
        opens = OPENS.match(line) if KEYWORD.match(line) else None
        if opens and not (current and current.has(line)):
            indent, kind, own, group = opens.groups()
            current = Definition(name, own, path, number, len(indent), kind or group)
            if own:
                module.own[own] = current
        elif current and current.has(line):
            # a constructor, or a function of a group: the whole stands for it; the fields of a record don't
            inner = re.match(r"^\s*(?:pub )?(?:data |record )?(" + NAME + r") : ", line)
            if inner and current.holds != "record":
                current.name = current.name or inner.group(1)
                module.own.setdefault(inner.group(1), current)
        if current:
            current.text.append(line)
    return module


def load():
    modules = {}
    for crate in sorted(os.listdir(ROOT)):
        specs = os.path.join(ROOT, crate, "specs")
        for base, _, files in os.walk(specs):
            for file in files:
                if file.endswith(".antt") and file != "Lib.antt":
                    path = os.path.join(base, file)
                    inner = os.path.relpath(path, specs)[:-5].replace(os.sep, ".")
                    name = f"Rattle.{crate}.specs.{inner}"
                    modules[name] = read_module(path, name)
    return modules


def words_of(text):
    return re.findall(r"(?:" + NAME + r"\.)*" + NAME + r"|◌\S*◌", re.sub(r"--.*", "", text))


def resolve(word, module, modules):
    parts = word.split(".")
    for size in range(len(parts), 0, -1):
        head, rest = parts[0], parts[1:size]
        if not rest:
            if head in module.own:
                return module.own[head]
            if head in module.names:
                path, name = module.names[head]
                return modules[path].own.get(name) if path in modules else None
        elif head in module.modules:
            path = ".".join([module.modules[head]] + rest[:-1])
            if path in modules:
                return modules[path].own.get(rest[-1])
    return None


def closure(text, module, modules):
    found, todo = {}, [(text, module)]
    while todo:
        text, scope = todo.pop()
        for word in words_of(text):
            definition = resolve(word, scope, modules)
            if definition is not None and id(definition) not in found:
                found[id(definition)] = definition
                todo.append(("\n".join(definition.text), modules[definition.module]))
    return sorted(found.values(), key=lambda d: (d.module, d.line))


def public_calls(crate):
    """Each public function of the crate: file, name, its clauses, and the names that its file brings in."""
    source = os.path.join(ROOT, crate, "src")
    for file in sorted(os.listdir(source)) if os.path.isdir(source) else []:
        if not file.endswith(".rt"):
            continue
        text = open(os.path.join(source, file), encoding="utf-8").read()
        scope = Module()
        for line in text.split("\n"):
            add_import(scope, line)
        for call in re.finditer(r"^\s*pub fn (\w+)(.*?)^\s*\{", text, re.M | re.S):
            clauses = []
            for clause in re.finditer(r"(requires|ensures)\*?\s*(\w*)\s*\{", call.group(2)):
                depth, end = 1, clause.end()
                body = call.group(2)
                while depth and end < len(body):
                    depth += {"{": 1, "}": -1}.get(body[end], 0)
                    end += 1
                clauses.append((clause.group(1), clause.group(2), body[clause.end():end - 1]))
            yield file, call.group(1), clauses, scope


def main():
    crates = sys.argv[1:2] or sorted(os.listdir(ROOT))
    modules = load()
    for crate in crates:
        for file, name, clauses, scope in public_calls(crate):
            if len(sys.argv) > 2 and name != sys.argv[2]:
                continue
            whole = {}
            for kind, label, text in clauses:
                if len(sys.argv) > 3 and label != sys.argv[3]:
                    continue
                definitions = closure(text, scope, modules)
                whole.update({id(d): d for d in definitions})
                print(f"{crate} {name} {kind} {label or '-'}: {len(definitions)} definitions, {sum(d.lines() for d in definitions)} lines")
                if len(sys.argv) > 2:
                    for d in definitions:
                        print(f"    {os.path.relpath(d.path, ROOT)}:{d.line} {d.name} {d.lines()}")
            if len(clauses) > 1 and len(sys.argv) < 4:
                print(f"{crate} {name}: {len(whole)} definitions, {sum(d.lines() for d in whole.values())} lines in all its clauses")


main()
