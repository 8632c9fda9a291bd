"""What the tools here ask the toolchain for beyond its command rt: the words of `rattle check` and `rattle build` for a crate of the project."""
import pathlib
import subprocess

ROOT = pathlib.Path(__file__).resolve().parent.parent


def kit():
    """The folder of the toolchain: rt doc prints a page in it."""
    return pathlib.Path(subprocess.run(['rt', 'doc'], capture_output=True, text=True, check=True).stdout.strip()).parent


def crates():
    """The libraries that each crate of crates.txt uses, by the crate's name, in the order of the file."""
    lines = (line.split('#')[0].strip() for line in (ROOT / 'crates.txt').read_text(encoding='utf-8').splitlines())
    return {name.split()[0]: uses.split() for name, _, uses in (line.partition(':') for line in lines if line)}


def below(name, of=None):
    """The crates of the project that a crate stands on, the lowest first."""
    of = of or crates()
    found = []
    for it in of[name]:
        if it in of:
            found += [one for one in [*below(it, of), it] if one not in found]
    return found


def words(name, home):
    """The words for a crate whose libraries are built, as `rt lib` leaves them."""
    of = crates()
    root = 'src/main.rt' if (ROOT / 'crates' / name / 'src' / 'main.rt').exists() else 'src/lib.rt'
    made = ['--crate-name', name, root, '-L', f'dependency={home}/rlibs']
    for it in dict.fromkeys(['core', 'std', *of[name]]):
        made += ['--extern', f'{it}={ROOT}/crates/{it}/out/rlib/{it}.rlib' if it in of else f'{it}={home}/rlibs/{it}.rlib']
    for it in below(name, of):
        made += ['-L', f'dependency={ROOT}/crates/{it}/out/rlib']
    return [*made, '--antt-project', f'{home}/rattle/logic/antt-project.json', '--logic-built', f'{home}/logic_built']


def rattle(verb, name, home, *more):
    """Runs the toolchain's compiler in the crate's folder."""
    return subprocess.run([f'{home}/bin/rattle', verb, *words(name, home), *more], cwd=ROOT / 'crates' / name, capture_output=True, text=True, errors='replace')
