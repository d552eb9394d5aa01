"""The modules themselves: what an older Python takes, and short functions."""
import ast
import os

from common import TOOL, read


def run(check, folder):
    for name in sorted(os.listdir(TOOL)):
        if name.endswith(".py"):
            text = read(TOOL, name).decode()
            tree = ast.parse(text, feature_version=(3, 8))
            check(f"{name} begins with what it is for", ast.get_docstring(tree))
            check(f"{name} has no line that is too long", max(map(len, text.splitlines())) <= 142, max(map(len, text.splitlines())))
            for node in ast.walk(tree):
                if isinstance(node, ast.FunctionDef):
                    length = node.end_lineno - node.lineno + 1
                    check(f"{name}: {node.name} is short", length <= 40, length)
