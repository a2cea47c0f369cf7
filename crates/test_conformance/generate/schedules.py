"""What an accepted schedule means, as docs/SCHEDULES.md has it: loops, splits and places."""

from pipelines import Pipeline


class Stage:
    def __init__(self, variables):
        self.loops = [dict(name=name, id=words, over=words, rounds=None, shifted=False, mark=None) for name, words in variables]
        self.splits = []

    def at(self, name):
        return next(i for i, loop in enumerate(self.loops) if loop["name"] == name and not loop["mark"])

    def split(self, name, outer, inner, factor, tail):
        place, number = self.at(name), len(self.splits)
        old = self.loops[place]
        shifted = old["shifted"] or tail == "shift"
        shared = dict(over=old["over"], shifted=shifted, mark=None)
        self.splits.append((old["id"], factor, tail))
        self.loops[place:place + 1] = [dict(name=inner, id=f"inner {number}", rounds=factor, **shared),
                                       dict(name=outer, id=f"outer {number}", rounds=None, **shared)]

    def reorder(self, names):
        places = [next(i for i, loop in enumerate(self.loops) if loop["name"] == name) for name in names]
        moved = [self.loops[place] for place in places]
        for place, loop in zip(sorted(places), moved):
            self.loops[place] = loop

    def lines(self):
        for loop in self.loops:
            text = f"  {loop['name']}: {loop['id']} over {loop['over']}"
            if loop["rounds"]:
                text += f", {loop['rounds']} rounds"
            if loop["shifted"]:
                text += ", shifted"
            if loop["mark"]:
                text += ", {} by line {}".format(*loop["mark"])
            yield text
        for of, factor, tail in self.splits:
            yield f"  split of {of} by {factor} {tail}"


def calls(e, found):
    if isinstance(e, tuple):
        if e[0] == "call":
            found.add(e[1])
            for argument in e[2]:
                calls(argument, found)
        elif e[0] != "var":
            calls(e[1], found)
            calls(e[2], found)
    return found


class Schedule:
    def __init__(self, algorithm, schedule):
        self.pipeline = Pipeline(algorithm)
        self.order = self.pipeline.order
        self.stages, self.compute = {}, {}
        for name, func in self.pipeline.funcs.items():
            arguments = list(zip(func["arguments"], ("first argument", "second argument")))
            self.stages[name, None] = Stage(arguments)
            for number, update in enumerate(func["updates"]):
                box = [(r[0], words) for r, words in zip(update["box"], ("first variable", "second variable"))]
                place = [a for a, left in zip(arguments, update["left"]) if left == ("var", a[0])]
                self.stages[name, number] = Stage(box + place)
        for number, line in enumerate(schedule.split("\n"), 1):
            words = line.split("#")[0].split()
            if words:
                self.take(number, *words)

    def take(self, line, subject, verb, *words):
        name, _, update = subject.partition(".")
        if verb in ("compute_root", "compute_at"):
            self.compute[name] = words
            return
        stage = self.stages[name, int(update) if update else None]
        if verb == "split":
            stage.split(*words[:3], int(words[3]), words[4])
        elif verb == "reorder":
            stage.reorder(words)
        else:
            mark = {"unroll": "unrolled", "vectorize": "vectorized", "parallel": "parallel"}[verb]
            stage.loops[stage.at(words[0])]["mark"] = (mark, line)

    def reached(self):
        found = {self.pipeline.output[0]}
        for name in reversed(self.order):
            if name in found:
                found |= self.called(name) & set(self.order)
        return found

    def called(self, name):
        func = self.pipeline.funcs[name]
        found = calls(func["pure"], set())
        for update in func["updates"]:
            for e in update["left"] + [update["right"]]:
                calls(e, found)
        return found

    def place(self, name):
        if name == self.pipeline.output[0]:
            return "root"
        if name not in self.compute:
            return "inlined"
        words = self.compute[name]
        if not words:
            return "root"
        consumer, inside = words
        is_later = consumer in self.order and self.order.index(consumer) > self.order.index(name)
        is_root = consumer == self.pipeline.output[0] or self.compute.get(consumer, None) == ()
        if not is_later or not is_root or self.pipeline.funcs[consumer]["updates"]:
            return "nowhere"
        for loop in self.stages[consumer, None].loops:
            if loop["name"] == inside and not (loop["mark"] and loop["mark"][0] == "vectorized"):
                return f"at func {self.order.index(consumer)} {loop['id']}"
        return "nowhere"

    def lines(self):
        reached = self.reached()
        found = []
        for number, name in enumerate(self.order):
            found.append(f"func {number} {'' if name in reached else 'unreached '}{self.place(name)}")
            found += self.stages[name, None].lines()
            for update in range(len(self.pipeline.funcs[name]["updates"])):
                found.append(f"update {update}")
                found += self.stages[name, update].lines()
        return found

    def vector_fault(self):
        """The first line that vectorizes a loop that may not be, in a stage that the output reaches."""
        reached, lines = self.reached(), []
        for (name, _), stage in self.stages.items():
            marked = [(loop["mark"][1], place, loop) for place, loop in enumerate(stage.loops)
                      if loop["mark"] and loop["mark"][0] == "vectorized"]
            if name in reached:
                first = min((line for line, _, _ in marked), default=None)
                lines += [line for line, place, loop in marked
                          if place or loop["rounds"] not in (4, 8, 16) or "variable" in loop["over"] or line != first]
        return min(lines, default=None)
