#!/usr/bin/env python3
"""Holds the library's yes or no on usage scopes of one texture against a real WebGPU.

    compare.py JUDGE [--scopes N] [--seed S] [--seconds T] [--browser NAME]

Random scopes are made for real in Chromium and judged by finish(); the same uses go through the library's merge_single with wgpu's
flags (the program JUDGE). The two must agree but for the known differences, and those must show where rules.py expects them. Then
EXCLUSIVE is broken bit by bit: each must be noticed on the same answers.
"""
import argparse
import json
import pathlib
import subprocess
import sys
from collections import Counter

sys.path.insert(0, str(pathlib.Path(__file__).resolve().parent.parent / "constants"))

import browser
import constants
import rules
import scopes

# The bits of EXCLUSIVE that scopes can show. Only a copy reads as COPY_SRC, and only beside COPY_DST, which excludes it by itself.
SHOWN = ("COPY_DST", "RESOURCE", "COLOR_TARGET", "DEPTH_STENCIL_READ", "DEPTH_STENCIL_WRITE",
         "STORAGE_READ_ONLY", "STORAGE_WRITE_ONLY", "STORAGE_READ_WRITE")


def arguments():
    parser = argparse.ArgumentParser(prog="webgpu", description="Holds the library's single merges against Chromium's WebGPU.")
    parser.add_argument("judge", help="the program that asks the library")
    parser.add_argument("--scopes", type=int, default=2000, help="random scopes; every two uses on the smallest textures come first")
    parser.add_argument("--seed", default="1")
    parser.add_argument("--seconds", type=int, default=120, help="how long the browser may take")
    parser.add_argument("--browser", default="chromium")
    return parser.parse_args()


def fault(answer, because):
    """What is wrong with WebGPU's answer, None if it is as expected."""
    ready, said = answer
    if ready:
        return f"it could not be made: {ready}"
    if not because:
        return said and f"WebGPU says no: {said}"
    if not said:
        return f"WebGPU says yes, where no was expected: {', '.join(sorted(because))}"
    if not any(words in said for reason in because for words in rules.WORDS[reason]):
        return f"WebGPU says no for another reason than {', '.join(sorted(because))}: {said}"
    return None


def size(scope):
    """What makes one scope smaller than another: fewer uses, a smaller texture, fewer draws and bundles, fewer words."""
    texture = scope["texture"]
    steps = sum(step["draw"] + step["bundle"] for step in scope.get("steps", []))
    return len(rules.uses(scope)), texture["mips"] * texture["layers"], steps, len(json.dumps(scope))


def short(scope):
    """The scope on one line: the texture, the kind and the uses in wgpu's words."""
    texture = scope["texture"]
    uses = [f"{use.state} of mips {use.mips[0]}..{use.mips[1]}, layers {use.layers[0]}..{use.layers[1]}"
            + (f", {use.aspect}" if use.aspect != "all" else "") for use in rules.uses(scope)]
    slices = [f"slice {each['layer']}" for each in scope.get("attachments", []) if texture["dimension"] == "3d"]
    draws = [("draw" if step["draw"] else "set") + (" in a bundle" if step["bundle"] else "") for step in scope.get("steps", [])]
    head = f"{texture['format']} {texture['dimension']}, {texture['mips']} x {texture['layers']}, {scope['kind']}"
    return f"{head}: " + "; ".join(uses + slices + draws)


def compare(made, answers, library):
    """Faults with their scopes, and for each difference and each case of BESIDE the scopes that show it."""
    faults, shown = [], {}
    for scope, answer, (one, apart) in zip(made, answers, library.judge(made)):
        because = rules.reasons(scope, apart)
        wrong = fault(answer, because)
        if wrong:
            faults.append((scope, wrong))
            continue
        for name in (rules.difference(one, because), rules.beside(scope, because)):
            shown.setdefault(name, []).append(scope)
    return faults, shown


def unnoticed(made, answers, judge, numbers):
    """The bits of EXCLUSIVE whose change makes no difference on these answers."""
    for name in SHOWN:
        broken = {**numbers, "EXCLUSIVE": numbers["EXCLUSIVE"] ^ numbers[name]}
        if not compare(made, answers, rules.Library(judge, broken))[0]:
            yield name


def tell(words, shown):
    """For each name how often it was met, and its smallest scope."""
    for name, what in words.items():
        met = shown.get(name, [])
        print(f"  {len(met)}: {what}")
        if met:
            print(f"      smallest: {short(min(met, key=size))}")


def summary(made, answers, shown, adapter, name):
    version = subprocess.run([name, "--version"], capture_output=True, text=True).stdout.strip()
    no = sum(1 for _, said in answers if said)
    kinds = Counter(scope["kind"] for scope in made)
    known = sum(len(shown.get(difference, [])) for difference in rules.DIFFERENCES)
    print(f"webgpu: {version}, adapter {adapter}")
    print(f"  {len(made)} scopes ({', '.join(f'{kinds[kind]} {kind}' for kind in sorted(kinds))}), "
          f"{len(made) - no} yes and {no} no there; {len(made) - known} agree with merge_single")
    tell(rules.DIFFERENCES, shown)
    print("  of those that agree:")
    tell(rules.BESIDE, shown)


def main():
    chosen = arguments()
    made, numbers = scopes.scopes(chosen.seed, chosen.scopes), constants.uses()
    try:
        adapter, answers = browser.judge(chosen.browser, made, chosen.seconds)
    except browser.Fault as error:
        sys.exit(f"webgpu: {error}")
    faults, shown = compare(made, answers, rules.Library(chosen.judge, numbers))
    if faults:
        scope, wrong = min(faults, key=lambda each: size(each[0]))
        print(f"webgpu: {len(faults)} of {len(made)} scopes are not as expected; the smallest:")
        print(f"{short(scope)}\n{json.dumps(scope)}\n{wrong}")
        return 1
    summary(made, answers, shown, adapter, chosen.browser)
    missed = list(unnoticed(made, answers, chosen.judge, numbers))
    missed += [name for name in rules.DIFFERENCES if name not in shown]
    print(f"  not noticed or not met: {', '.join(missed)}" if missed else f"  {len(SHOWN)} wrong EXCLUSIVE masks were all noticed")
    return 1 if missed else 0


if __name__ == "__main__":
    sys.exit(main())
