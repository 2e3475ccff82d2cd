"""The kit's prover and compiler over the libraries of this checkout, for what the gate does beyond `rt ci`.

`rt ci` leaves each library that it proved in crates/NAME/out/rlib. `rt lib` and `rt check` do not take those, and in a clean checkout they would prove everything below once
more; here the prover and the compiler are handed just those, by their own command line (`rattle build --help`). Where they are not there, or a file of a crate is younger than
its library, `rt lib` makes them first."""
import os
import re
import shutil
import subprocess
import sys

ROOT = os.path.realpath(os.path.join(os.path.dirname(os.path.abspath(__file__)), '..'))
JOBS = str(max(1, min(4, os.cpu_count() or 1)))


def kit():
    rt = shutil.which('rt')
    if rt is None:
        sys.exit('no rt is installed')
    return os.path.dirname(os.path.dirname(os.path.realpath(rt)))


def below(crate):
    """The libraries that a crate stands on, leaves first; those of the kit last."""
    lines = dict(re.findall(r'(?m)^(\w+)(?: [^:\n]*)?:(.*)$', open(f'{ROOT}/crates.txt', encoding='utf8').read()))
    found, todo = set(), lines[crate].split()
    while todo:
        name = todo.pop()
        if name not in found:
            found.add(name)
            todo += lines.get(name, '').split()
    return [name for name in lines if name in found], ['std', *sorted(found - lines.keys())]


def library(crate):
    return f'{ROOT}/crates/{crate}/out/rlib/{crate}.rlib'


def is_as_proved(crate):
    """Is the library there as rt ci left it, and no file of the crate younger? One that another command made has a stamp beside it."""
    made = library(crate)
    if not os.path.isdir(made) or os.path.exists(f'{os.path.dirname(made)}/stamp'):
        return False
    when = os.stat(made).st_mtime
    for part in ('src', 'specs', 'proofs'):
        for at, _, files in os.walk(f'{ROOT}/crates/{crate}/{part}'):
            if any(os.stat(path).st_mtime > when for path in [at, *(f'{at}/{name}' for name in files)]):
                return False
    return True


def make_libraries(crate):
    """Sees that the libraries below a crate are there."""
    names, _ = below(crate)
    if all(is_as_proved(name) for name in names):
        return
    for name in names:
        run = subprocess.run(['rt', 'lib'], cwd=f'{ROOT}/crates/{name}', stdin=subprocess.DEVNULL, stdout=subprocess.PIPE, stderr=subprocess.STDOUT, text=True, errors='replace')
        if run.returncode:
            sys.exit(f'{run.stdout[-3000:]}\nthe library {name} is not made')


def rattle(verb, crate, *more, folder=None, instead=None):
    """Runs the kit's `rattle check` or `rattle build` on a library crate; instead: other places of libraries below it. Its status, and what it prints."""
    at, (names, of_kit), instead = kit(), below(crate), instead or {}
    words = [f'{at}/bin/rattle', verb, '--crate-name', crate, 'src/lib.rt', '-L', f'dependency={at}/rlibs']
    for name in of_kit:
        words += ['--extern', f'{name}={at}/rlibs/{name}.rlib']
    for name in names:
        place = instead.get(name, library(name))
        words += ['--extern', f'{name}={place}', '-L', f'dependency={os.path.dirname(place)}']
    words += ['--antt-project', f'{at}/rattle/logic/antt-project.json', '--logic-built', f'{at}/logic_built', '--jobs', JOBS, '--links', f'{crate}=', *more]
    run = subprocess.run(words, cwd=folder or f'{ROOT}/crates/{crate}', stdin=subprocess.DEVNULL, stdout=subprocess.PIPE, stderr=subprocess.STDOUT, text=True, errors='replace')
    return run.returncode, run.stdout
