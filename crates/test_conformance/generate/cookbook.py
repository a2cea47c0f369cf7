"""The recipes of examples/cookbook: the picture that each draws, and what three harts leave of it under each of its schedules."""

import os

import pipelines
from cases import FOLDER

COOKBOOK = os.path.join(FOLDER, "..", "..", "examples", "cookbook")
HARTS = 3


def lines_of(recipe, name):
    with open(os.path.join(COOKBOOK, recipe, f"{name}.txt")) as file:
        return file.read().split("\n")[:-1]


def recipes(file, _):
    for recipe in sorted(os.listdir(COOKBOOK)):
        if os.path.isdir(os.path.join(COOKBOOK, recipe)):
            served(file, recipe)


def served(file, recipe):
    algorithm = lines_of(recipe, "algorithm")
    inputs = [lines_of(recipe, name) for name in pipelines.Pipeline("\n".join(algorithm)).inputs]
    pictures = [("picture", lines) for lines in inputs]
    numbers = [[int(number) for row in lines[1:] for number in row.split()] for lines in inputs]
    text = "".join(line + "\n" for line in algorithm)
    drawn = pipelines.draw(text, dict(zip(pipelines.Pipeline(text).inputs, numbers)))
    assert drawn == lines_of(recipe, "picture"), recipe
    file.case("draw", recipe, [("algorithm", algorithm)] + pictures, drawn)
    for schedule in "plain", "strips", "vectors":
        parts = [("harts", [str(HARTS)]), ("turns", ["10000000"]), ("algorithm", algorithm)]
        parts += [("schedule", lines_of(recipe, schedule))] + pictures
        ends = [f"hart {hart} finished" for hart in range(HARTS)]
        file.case("share", f"{recipe}: {schedule}", parts, ends + drawn)
