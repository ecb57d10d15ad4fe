"""A crate's proved tests: each has to pass whichever allocation is refused."""
import re

from refusal import TOP, count_of, library, places, run, words_of


def refuse_each(program, made, test, most):
    """Whether a test passes without each of its allocations."""
    counted = run(program, made, words=[test], COUNT="1")
    if counted.returncode:
        print(f"{test}: fails with all its memory")
        return False
    count, told, is_so = count_of(counted), 0, True
    for place in places(count, most):
        ran = run(program, made, words=[test], REFUSE=str(place))
        told += b"no memory" in ran.stdout + ran.stderr
        if ran.returncode:
            print(f"{test}: allocation {place} refused")
            is_so = False
    print(f"{test}: {count} allocations, {len(places(count, most))} refused in turn, {told} of them told by the test")
    return is_so


def main(words):
    said = words_of("proved", words, "most", "tests")
    is_so = True
    for crate in said.names:
        program = TOP / "crates" / crate / "out" / f"{crate}_tests"
        if not program.exists():
            print(f"{program} isn't there: run rt test in crates/{crate}")
            return 2
        with library() as made:
            listed = run(program, made, words=["--list"]).stdout.decode()
            for test in re.findall(r"(?m)^(.*): test$", listed):
                if test.startswith(said.tests):
                    is_so = refuse_each(program, made, test, said.most) and is_so
    return int(not is_so)
