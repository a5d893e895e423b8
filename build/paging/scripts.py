"""Modules of JavaScript as one script: each a function that gives what it exports, in the order in which they need each
other. A module is known by its path below the page's folder, such as `engine/worker.js`."""
import posixpath
import re

from replaycheck.endings import Fault

IMPORT = re.compile(r"^import \{ ([^}]+) \} from '(\.{1,2}/[a-z./-]*[a-z-]+\.js)';\n", re.M)
EXPORT = re.compile(r"^export (?=(?:async )?(?:const|let|function|class) )", re.M)
EXPORTED = re.compile(r"^export (?:async )?(?:const|let|function|class) ([\w$]+)", re.M)
OTHER = re.compile(r"^\s*(?:import|export)\b|\bimport\.meta\b", re.M)


def imports_of(name, modules):
    """What a module imports: the path of each module that it names, with the names that it takes from it."""
    folder = posixpath.dirname(name)
    return [(posixpath.normpath(posixpath.join(folder, found[2])), found[1]) for found in IMPORT.finditer(modules[name])]


def order_of(name, modules, seen=(), done=None):
    """The names of a module and of those that it needs, the needed ones first."""
    done = [] if done is None else done
    if name in seen:
        raise Fault(f"the page's modules import each other in a circle: {' '.join([*seen, name])}")
    if name not in modules:
        raise Fault(f"{seen[-1] if seen else 'the page'}: imports {name}, which doesn't exist")
    for needed, _ in imports_of(name, modules):
        order_of(needed, modules, (*seen, name), done)
    if name not in done:
        done.append(name)
    return done


def variable(name):
    return "module_" + re.sub(r"\W", "_", name.removesuffix(".js"))


def is_found(name, modules):
    """Whether all that a module imports is exported by name, as a name that isn't would only be undefined in one script."""
    return all(word.split()[0] in EXPORTED.findall(modules[needed])
               for needed, words in imports_of(name, modules) for word in words.split(","))


def wrapped(name, modules):
    """A module as a function that is called at once."""
    text = modules[name]
    exported, needed = ", ".join(EXPORTED.findall(text)), iter(imports_of(name, modules))
    body = IMPORT.sub(lambda found: f"const {{ {found[1].replace(' as ', ': ')} }} = {variable(next(needed)[0])};\n", text)
    body = EXPORT.sub("", body)
    if OTHER.search(body):
        raise Fault(f"{name}: an import or export in a form that the page of one file doesn't support")
    return f"const {variable(name)} = (() => {{\n{body}return {{ {exported} }};\n}})();\n"


def one_script(name, modules):
    """The script of a module with all that it needs."""
    names = order_of(name, modules)
    for needed in names:
        if not is_found(needed, modules):
            raise Fault(f"{needed}: imports something that isn't exported in a form that the page of one file supports")
    variables = [variable(module) for module in names]
    if len(set(variables)) < len(variables):
        raise Fault(f"two of the page's modules have the same name in one script: {' '.join(names)}")
    return "'use strict';\n" + "".join(wrapped(module, modules) for module in names)
