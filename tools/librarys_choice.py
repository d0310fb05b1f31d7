#!/usr/bin/env python3
"""Imports the library's if◌then◌else◌ in place of the one that crates/choice defined alike. Run once, at the top."""
import os
import re

OWN = re.compile(r"^((?:ghost )?use )Rattle\.choice\.specs\.Choice\.\{if◌then◌else◌\}(;?)\n", re.M)
STD = re.compile(r"^((?:ghost )?use Rattle\.std\.specs\.Prelude\.\{)([^}]*)\}", re.M)

for folder, dirs, names in os.walk("crates"):
    dirs[:] = [d for d in dirs if d != "out"]
    for f in names:
        p = os.path.join(folder, f)
        if not f.endswith((".antt", ".rt")) or p == "crates/choice/specs/Choice.antt":
            continue
        text = open(p, encoding="utf-8").read()
        m = OWN.search(text)
        if not m:
            continue
        if STD.search(text):
            new = STD.sub(lambda s: f"{s.group(1)}{s.group(2)}, if◌then◌else◌}}", OWN.sub("", text), count=1)
        else:
            new = OWN.sub(lambda s: f"{s.group(1)}Rattle.std.specs.Prelude.{{if◌then◌else◌}}{s.group(2)}\n", text)
        open(p, "w", encoding="utf-8").write(new)
