"""Each comparison and each modulus of the model's functions, changed mechanically on its tree.

A device is `FUNCTION: WHAT STANDS -> WHAT IS PUT`; where a function has the same twice, the later ones are numbered.
"""
import ast
import copy

# What reads and prints the texts of a trace and of records, which is no device's own, and what only builds its state.
OTHERS = {"main", "replay", "slot_of"}
OTHER_BOUND = {ast.Lt: ast.LtE, ast.LtE: ast.Lt, ast.Gt: ast.GtE, ast.GtE: ast.Gt}
ONE_FURTHER = {ast.Lt: -1, ast.LtE: 1, ast.Gt: 1, ast.GtE: -1}


def devices(functions):
    """Each device in words, with its function and that function's text."""
    for function in functions:
        if function.name not in OTHERS:
            yield from of_function(function)


def of_function(function):
    tree, told = copy.deepcopy(function.tree), {}
    for parent, field, index, node in list(nodes(tree)):
        for other in others(node):
            put(parent, field, index, other)
            text = ast.unparse(ast.fix_missing_locations(tree))
            words = f"{function}: {ast.unparse(node)} -> {ast.unparse(other)}"
            put(parent, field, index, node)
            told[words] = told.get(words, 0) + 1
            yield words + (f" ({told[words]})" if told[words] > 1 else ""), function, text


def nodes(tree):
    """Each expression below a node, and where it stands."""
    for field, value in ast.iter_fields(tree):
        for index, one in enumerate(value) if isinstance(value, list) else [(None, value)]:
            if isinstance(one, ast.AST) and not isinstance(one, ast.arguments) and not isinstance(tree, ast.JoinedStr):
                if isinstance(one, ast.expr):
                    yield tree, field, index, one
                yield from nodes(one)


def put(parent, field, index, node):
    if index is None:
        setattr(parent, field, node)
    else:
        getattr(parent, field)[index] = node


def others(node):
    """What is put in a node's place."""
    if isinstance(node, ast.Compare):
        for place in range(len(node.ops)):
            yield from other_comparisons(node, place)
    elif isinstance(node, ast.BinOp) and isinstance(node.op, ast.Mod):
        yield from other_moduli(node)


def other_comparisons(node, place):
    """One comparison of a node with its bound moved, or with one of the numbers left out among which it looks."""
    operator, bound = type(node.ops[place]), node.comparators[place]

    def with_these(operator, bound):
        other = ast.Compare(node.left, list(node.ops), list(node.comparators))
        other.ops[place], other.comparators[place] = operator(), bound
        return other

    if operator in OTHER_BOUND:
        yield with_these(OTHER_BOUND[operator], bound)
        yield with_these(operator, more(bound, ONE_FURTHER[operator]))
    elif operator in (ast.In, ast.NotIn) and isinstance(bound, ast.Tuple):
        yield from (with_these(operator, ast.Tuple(rest, ast.Load())) for rest in without_one(bound.elts))


def other_moduli(node):
    """A modulus one off, doubled, halved and left out."""
    double = ast.BinOp(node.right, ast.Mult(), ast.Constant(2))
    half = ast.BinOp(node.right, ast.FloorDiv(), ast.Constant(2))
    yield from (ast.BinOp(node.left, ast.Mod(), modulus) for modulus in (more(node.right, 1), more(node.right, -1), double, half))
    yield node.left


def more(node, by):
    return ast.BinOp(node, ast.Add() if by > 0 else ast.Sub(), ast.Constant(abs(by)))


def without_one(elements):
    return [elements[:place] + elements[place + 1:] for place in range(len(elements))]
