"""The values of conditions, beside what Cargo builds."""
import itertools
import random
import unittest.mock

from . import needs
from .made import KINDS, Folder, entry
from .test_library import Counting

import cfgx
from cfgx import _library, manifest
from cfgx.manifest import Value, _conditions, _platforms
from cfgx.manifest._search import Budget

LINUX, WINDOWS, MUSL, PHONE = (
    "x86_64-unknown-linux-gnu", "x86_64-pc-windows-gnu", "x86_64-unknown-linux-musl",
    "aarch64-apple-ios",
)
# The lines of a library, and of a proc-macro.
LIBRARIES = ("", "[lib]\nproc-macro = true")
# What the engine refuses and Cargo accepts: a condition, its value on Linux, the flag that is its
# text, and the characters at fault.
REFUSED = [
    ("r#unix", True, "unix", (1, 2)), ("r#windows", False, "windows", (1, 2)),
    ("r#loom", None, "loom", (1, 2)), ("r#all", False, "all", (1, 2)),
    ('r#key = "x"', None, 'key="x"', (1, 2)), ('not(r#target_os = "linux")', False, None, (5, 6)),
    ("target_has_atomic", False, "target_has_atomic", (0, 17)),
    ('target_object_format = "elf"', False, 'target_object_format="elf"', (0, 20)),
    ('target_foo = "x"', False, 'target_foo="x"', (0, 10)),
    ("panic", False, "panic", (0, 5)), ("feature", False, "feature", (0, 7)),
    ("target_os", False, "target_os", (0, 9)), ('unix = "x"', False, 'unix="x"', (8, 9)),
    ('target_endian = "middle"', False, 'target_endian="middle"', (17, 23)),
    ('target_pointer_width = "abc"', False, 'target_pointer_width="abc"', (24, 27)),
    ('target_has_atomic = "x"', False, 'target_has_atomic="x"', (21, 22)),
    ('target_feature = ""', False, 'target_feature=""', (18, 18)),
    ('test = "x"', False, 'test="x"', (8, 9)), ('true = "x"', False, None, (8, 9)),
    ('any(windows, target_foo = "all(x")', False, 'target_foo="all(x"', (13, 23)),
]
# What the engine accepts, and Cargo compares as a text: whether it is true on Linux.
ACCEPTED = [
    ("unix", True), ("windows", False), ('target_family = "unix"', True), ("true", True),
    ("r#true", True), ("r#false", False), ("all()", True), ("any()", False),
    ("all(false, loom)", False), ("any(unix, loom)", True), ("loom", None), ('key = "x"', None),
    ('target_pointer_width = "64"', True), ('target_pointer_width = "064"', False),
    ('target_has_atomic = "8"', True), ('target_has_atomic = "+8"', False),
    ('not(target_has_atomic = "08")', True), ('target_endian = "little"', True),
    ('target_feature = "sse2"', True), ('target_feature = "neon"', False),
    ('target_feature = "crt-static"', False), ('any(target_env = "musl", windows)', False),
    ("debug_assertions", True), ("test", False), ("proc_macro", False), ('feature = "x"', False),
    ('panic = "unwind"', True), ('target_abi = ""', True), ('feature = "é, all(x)"', False),
    ("any(loom, not(loom))", True), ("all(loom, r#loom, not(loom))", False),
]
# Flags that RUSTFLAGS may set, and conditions over them, with how many flags an example needs that
# leads to true, and one that leads to false.
FLAGS = ("loom", "tokio_unstable", 'key="x"')
UNKNOWN = {
    "loom": (1, 1), "any(loom, tokio_unstable)": (1, 2), "all(loom, not(tokio_unstable))": (2, 1),
    'any(all(loom, key = "x"), all(not(loom), not(key = "x")))': (2, 2),
    'any(all(loom, not(loom)), all(tokio_unstable, not(key = "x")))': (2, 2),
    'not(any(not(loom), all(tokio_unstable, key = "x"), windows))': (2, 1),
    'all(any(loom, key = "x"), any(tokio_unstable, not(key = "x")))': (2, 2),
}
EQUAL = [
    ("any(all(loom, unix), all(not(loom), unix))", True),
    ("any(all(loom, windows), all(not(loom), windows))", False),
    ("any(tokio_unstable, loom, not(tokio_unstable))", True),
]


def platform_with(*facts, is_open=True):
    """Returns a target with these facts."""
    return _platforms.Platform("t", "t", False, frozenset(facts), is_open)


def value_of(condition, *facts, **options):
    """Returns the values of a condition on a target with these facts."""
    condition = f"cfg({condition})"
    return _conditions.values_of([condition], [platform_with(*facts, **options)])[condition]


def generated(chosen, depth):
    """Returns a condition of some depth over four flags and two facts."""
    if depth == 0 or chosen.random() < 0.3:
        return chosen.choice(["a", "b", "c", 'k = "v"', "r#a", "unix", "windows", "true"])
    function = chosen.choice(["all", "any", "not"])
    count = 1 if function == "not" else chosen.randint(0, 4)
    return f"{function}({', '.join(generated(chosen, depth - 1) for _ in range(count))})"


class Conditions(unittest.TestCase):
    """The values of conditions over facts."""

    def test_what_the_engine_refuses(self):
        for condition, on_linux, flag, span in REFUSED:
            with self.subTest(condition=condition):
                found = value_of(condition, "unix", 'target_os="linux"')
                self.assertEqual(found.on, (on_linux,))
                self.assertEqual(found.fault.span, (span[0] + 4, span[1] + 4))
                if flag is not None:
                    self.assertEqual(value_of(condition, flag).on, (True,))

    def test_reasons(self):
        self.assertIs(value_of("panic").fault.reason, cfgx.Reason.UNEXPECTED)
        self.assertIs(value_of('target_endian = "x"').fault.reason, cfgx.Reason.INVALID_INTEGER)
        self.assertIsNone(value_of("any(unix, loom)").fault)

    def test_unknown_flags(self):
        found = value_of("any(all(windows, a), all(unix, any(b, not(c))))", "unix")
        self.assertEqual(found.on, (None,))
        reason = found.unknown[0]
        self.assertEqual(reason.flags, ("a", "b", "c"))
        self.assertEqual(reason.if_no, {"b": False, "c": True})
        self.assertIn(reason.if_yes, ({"b": True}, {"c": False}))
        closed = value_of("any(b, not(c))", is_open=False)
        self.assertEqual((closed.on, closed.unknown), ((True,), {}))

    def test_flags_stand_once_in_one_order(self):
        found = _conditions.values_of(
            ["cfg(any(b, a, b))", "cfg(all(a, b))", 'cfg(not(any(b, a, k = "x")))'],
            [platform_with()],
        )
        first, second, third = (values.unknown[0] for values in found.values())
        self.assertEqual((first.flags, second.flags), (("a", "b"), ("a", "b")))
        self.assertEqual(third.flags, ("a", "b", 'k="x"'))
        self.assertEqual(list(third.if_yes), ["a", "b", 'k="x"'])

    def test_reasons_are_shared_by_platforms(self):
        platforms = [platform_with("unix"), platform_with("windows"), platform_with("unix")]
        found = _conditions.values_of(["cfg(any(windows, loom))"], platforms)
        values = found["cfg(any(windows, loom))"]
        self.assertEqual(values.on, (None, True, None))
        self.assertEqual(list(values.unknown), [0, 2])
        self.assertIs(values.unknown[0], values.unknown[2])
        self.assertEqual(len(values.unknown), 2)
        self.assertEqual(dict(values.unknown), values.unknown)
        self.assertRaises(KeyError, lambda: values.unknown[1])
        self.assertIn("(0, 2)", repr(values.unknown))

    def test_platforms_that_answer_differently(self):
        # Equal flags have equal answers, so it is true on Unix, and needs `b` on Windows.
        condition = "cfg(any(all(unix, any(a, not(a))), all(windows, b)))"
        facts = (["unix"], ["windows"], [], ["unix", "windows"], ["windows", "b"])
        platforms = [platform_with(*one) for one in facts]
        for order in itertools.permutations(range(len(facts))):
            found = _conditions.values_of([condition], [platforms[place] for place in order])
            values = found[condition]
            wanted = (True, None, False, True, True)
            self.assertEqual(values.on, tuple(wanted[place] for place in order))
            [(place, reason)] = values.unknown.items()
            self.assertEqual((order[place], reason.flags), (1, ("a", "b")))
            self.assertEqual((reason.if_yes, reason.if_no), ({"b": True}, {"b": False}))

    def test_platforms_with_and_without_other_flags(self):
        condition = "cfg(any(unix, loom))"
        rows = [(("unix",), True, True), (("unix",), False, True), ((), True, None),
                ((), False, False), (("loom",), False, True), (("loom",), True, True)]
        for order in itertools.permutations(rows):
            platforms = [platform_with(*facts, is_open=is_open) for facts, is_open, _ in order]
            found = _conditions.values_of([condition], platforms)[condition]
            self.assertEqual(found.on, tuple(value for _, _, value in order))

    def test_many_flags(self):
        flags = [f"a{number}" for number in range(40)]
        self.assertEqual(value_of(f"any({', '.join(flags)}, not(a0))").on, (True,))
        reason = value_of(f"any({', '.join(flags)})").unknown[0]
        self.assertEqual(reason.if_no, dict.fromkeys(flags, False))
        self.assertEqual(list(reason.if_yes.values()), [True])

    def test_generated_conditions(self):
        # A value is compared with those for each setting of four flags, and so are the examples.
        chosen = random.Random(7)
        conditions = [generated(chosen, 4) for _ in range(300)]
        flags = ("a", "b", "c", 'k="v"')
        settings = [dict(zip(flags, given))
                    for given in itertools.product((False, True), repeat=len(flags))]
        closed = [platform_with("unix", *(flag for flag in flags if setting[flag]), is_open=False)
                  for setting in settings]
        names = [f"cfg({one})" for one in conditions]
        wanted = _conditions.values_of(names, closed)
        found = _conditions.values_of(names, [platform_with("unix")])
        unknown = 0
        for name in names:
            on, [value] = wanted[name].on, found[name].on
            self.assertEqual((name, value), (name, on[0] if len(set(on)) == 1 else None))
            for reason in found[name].unknown.values():
                for value, example in ((True, reason.if_yes), (False, reason.if_no)):
                    fitting = {on[place] for place, setting in enumerate(settings)
                               if example.items() <= setting.items()}
                    self.assertEqual((name, example, fitting), (name, example, {value}))
                    unknown += 1
        self.assertGreater(unknown, 100)

    def test_too_many_flags_to_try(self):
        # The value is known, but only all answers to 60 flags show it.
        differ = [f"any(all(a{n}, not(b{n})), all(not(a{n}), b{n}))" for n in range(30)]
        found = value_of(f"all({', '.join(differ)}, any(x, not(x)), all(y, not(y)))")
        self.assertEqual(found.on, (None,))
        self.assertIsNone(found.unknown[0].if_yes)
        self.assertFalse(found.unknown[0].is_tried)
        self.assertEqual(len(found.unknown[0].flags), 62)

    def test_too_many_platforms_to_try(self):
        # No answers make it true, and the last flags show it. Each platform has other facts.
        pairs = [*((f"a{n}", f"b{n}") for n in range(9)), ("p", "q"), ("q", "r"), ("p", "r")]
        differ = [f"any(all({a}, not({b})), all(not({a}), {b}))" for a, b in pairs]
        systems = [f'target_os = "{n}"' for n in range(40)]
        condition = f"cfg(all({', '.join(differ)}, any(x, not(x), {', '.join(systems)})))"
        platforms = [platform_with(system.replace(" ", "")) for system in systems]
        counting = Counting()
        with unittest.mock.patch.object(_library, "LIBRARY", counting):
            found = _conditions.values_of([condition], platforms, Budget(10_000_000))[condition]
        self.assertEqual(found.on, (None,) * len(platforms))
        self.assertEqual({reason.if_yes for reason in found.unknown.values()}, {None})
        # A try of these 90 predicates costs between four and five thousand.
        tries = counting.names.count("cfgx_apply")
        self.assertTrue(10_000_000 // 5000 < tries < 10_000_000 // 4000, tries)
        # For one of them, the budget suffices.
        left = Budget()
        found = _conditions.values_of([condition], platforms[:1], left)[condition]
        self.assertEqual((found.on, found.unknown), ((False,), {}))
        self.assertGreater(left.left, 0)

    def test_triples(self):
        platforms = [_platforms.Platform(one, one, False, frozenset(), True)
                     for one in ("x86_64-pc-windows-gnu", "x86_64-pc-windows-gnullvm")]
        for key, wanted in [(platforms[0].triple, (True, False)), ("x86_64", (False, False)),
                            ("", (False, False)), (None, (True, True))]:
            self.assertEqual(_conditions.values_of([key], platforms)[key].on, wanted)

    def test_what_is_no_condition(self):
        for text in ("cfg(", "cfg()", "cfg(all(unix)", "cfg(a b)", "cfg(é)", "cfg(unix",
                     "cfg(unix) ", "cfg(unix)x", "cfg(all()"):
            with self.subTest(text=text), self.assertRaises(manifest.CargoError) as caught:
                _conditions.values_of([text], [])
            self.assertIn("is no condition", str(caught.exception))


@needs("cargo", "rustc", untested="the values of conditions beside Cargo's unit graph")
class UnitGraph(Folder):
    """What Cargo would build."""

    def write_conditions(self, conditions, *lines):
        """Writes a package, which has these lines too, with a dependency of each kind for each
        condition."""
        rows = enumerate(conditions)
        return self.write_package("a", *lines, *(
            entry(kind, f"{letter}{number}", condition=f"cfg({condition})")
            for number, condition in rows for letter, kind in zip("ndb", KINDS)
        ), sources=("src/lib.rs", "build.rs"))

    def test_conditions_on_targets(self):
        wanted = {**{text: value for text, value, _, _ in REFUSED}, **dict(ACCEPTED)}
        self.assertEqual(len(wanted), 51)
        targets, compared = (LINUX, WINDOWS, MUSL, PHONE), 0
        for library, triple in itertools.product(LIBRARIES, targets):
            path = self.write_conditions(wanted, library)
            # Another compiler than that of the table may print other facts, as a nightly does.
            report = manifest.report(path, [triple], no_other_cfg=True, rustc=True)
            compared += self.assert_is_built(report, self.graph_of(path, triple))
        # Each kind of dependency, on the host and on the target.
        self.assertEqual(compared, len(LIBRARIES) * len(targets) * 51 * 3 * 2)
        report = manifest.report(self.write_conditions(wanted), [LINUX], kinds=["normal", "dev"])
        values = {True: Value.YES, False: Value.NO, None: Value.UNKNOWN}
        self.assertEqual(len(report.rows), 51 * 2)
        for row in report.rows:
            condition = list(wanted)[int(row.dependency.name[1:])]
            self.assertEqual((condition, row.values[1]), (condition, values[wanted[condition]]))

    def test_flags_that_are_texts(self):
        path = self.write_conditions(condition for condition, _, _, _ in REFUSED)
        flags = [flag for _, _, flag, _ in REFUSED if flag is not None and " " not in flag]
        rustflags = " ".join(f"--cfg {flag}" for flag in flags)
        for targets in ([LINUX], []):
            report = manifest.report(
                path, targets, cfg=flags, no_other_cfg=True, rustc=True
            )
            units = self.graph_of(path, *targets, RUSTFLAGS=rustflags)
            compared = self.assert_is_built(report, units)
            self.assertEqual(compared, len(REFUSED) * 3 * (1 + len(targets)))

    def test_examples(self):
        path = self.write_conditions([*UNKNOWN, *(condition for condition, _ in EQUAL)])
        report = manifest.report(path, [LINUX], kinds=["normal"])
        compared = 0
        for given in itertools.product((False, True), repeat=len(FLAGS)):
            setting = dict(zip(FLAGS, given))
            names = [flag for flag in FLAGS if setting[flag]]
            units = self.graph_of(path, LINUX, RUSTFLAGS=" ".join(f"--cfg {one}" for one in names))
            built = manifest.report(path, [LINUX], cfg=names, no_other_cfg=True)
            self.assert_is_built(built, units)
            rows = [row for row in built.rows if row.dependency.kind == "normal"]
            compared += sum(map(self.compare, report.rows, rows, itertools.repeat(setting)))
        found = {row.dependency.condition[4:-1]: row.values[1] for row in report.rows}
        values = {condition: Value.YES if value else Value.NO for condition, value in EQUAL}
        self.assertEqual(found, {**dict.fromkeys(UNKNOWN, Value.UNKNOWN), **values})
        named = {
            row.dependency.condition[4:-1]: (len(reason.if_yes), len(reason.if_no))
            for row in report.rows for reason in row.unknown.values()
        }
        self.assertEqual(named, UNKNOWN)
        # A known value holds for all 8 settings of the flags. An example holds for each setting
        # that agrees with it: for 4 if it names one flag, and for 2 if it names two.
        self.assertEqual(compared, 3 * 8 + (4 + 4) + (4 + 2) + (2 + 4) + 2 * 2 + 2 * 2 + (2 + 4)
                         + 2 * 2)

    def compare(self, row, built, setting):
        """Compares a row with one for a setting of the flags. Returns how many examples agree with
        the setting, or 1 if the value is known."""
        if row.values[1] is not Value.UNKNOWN:
            self.assertEqual(row.values[1], built.values[1])
            return 1
        reason = row.unknown[1]
        examples = [(Value.YES, reason.if_yes), (Value.NO, reason.if_no)]
        fitting = [value for value, given in examples if given.items() <= setting.items()]
        self.assertTrue(all(value is built.values[1] for value in fitting))
        return len(fitting)
