"""model.py as a text of functions, so that a device that changes one of them is made in a millisecond."""
import ast
import os
import textwrap

HERE = os.path.dirname(os.path.abspath(__file__))
MODEL = os.path.join(HERE, "model.py")


class Function:
    """A function of the model: its class, if any, its name, its tree, and where its text stands."""

    def __init__(self, owner, tree, starts):
        self.owner, self.name, self.tree = owner, tree.name, tree
        self.start, self.end = starts[tree.lineno - 1], starts[tree.end_lineno]

    def __str__(self):
        return f"{self.owner}.{self.name}" if self.owner else self.name

    def of(self, names):
        """The function itself, among the names of a model."""
        return vars(names[self.owner])[self.name] if self.owner else names[self.name]


class Model:
    """The model, and what is made of it."""

    def __init__(self):
        with open(MODEL, encoding="utf-8") as file:
            self.text = file.read()
        self.code = compile(self.text, MODEL, "exec")
        starts = [0]
        for line in self.text.split("\n"):
            starts.append(starts[-1] + len(line) + 1)
        tops = [(None, top) for top in ast.parse(self.text).body]
        members = [(top.name, member) for _, top in tops if isinstance(top, ast.ClassDef) for member in top.body]
        self.functions = [Function(owner, tree, starts) for owner, tree in tops + members if isinstance(tree, ast.FunctionDef)]

    def names(self):
        """The names of the right model."""
        names = {"__name__": "model"}
        exec(self.code, names)
        return names

    def function_at(self, place):
        """The function whose text this place is in, or None."""
        return next((one for one in self.functions if one.start <= place < one.end), None)

    def changed(self, old, new):
        """The names of a model with another text in place of `old`, which it has once."""
        function = self.function_at(self.text.index(old))
        if function is None or old not in self.text[function.start:function.end]:
            names = {"__name__": "model"}
            exec(compile(self.text.replace(old, new), MODEL, "exec"), names)
            return names
        return self.with_function(function, self.text[function.start:function.end].replace(old, new))

    def with_function(self, function, text):
        """The names of a model in which this text is the function's."""
        names, own = self.names(), {}
        if function.owner:
            text = f"class {function.owner}:\n" + textwrap.indent(textwrap.dedent(text), "    ")
        exec(compile(text, MODEL, "exec"), names, own)
        changed = vars(own[function.owner])[function.name] if function.owner else own[function.name]
        right = function.of(names)
        getattr(right, "fget", right).__code__ = getattr(changed, "fget", changed).__code__
        return names
