"""Old names, which go on with a warning."""
import inspect
import unittest
import warnings

from cfgx import _command, _renamed, manifest

# The old names of parameters of `report`, and the new ones with what they are for an old value.
PARAMETERS = [
    ("is_workspace", True, "workspace", True), ("flags", ["loom"], "cfg", ["loom"]),
    ("has_other_flags", False, "no_other_cfg", True), ("asks_rustc", True, "rustc", True),
]


class Parameters(unittest.TestCase):
    """The parameters of `report`."""

    def test_old_names(self):
        for old, value, new, wanted in PARAMETERS:
            @_renamed.parameters(**manifest._report.RENAMED)
            def given(**named):
                return named

            with self.subTest(old=old), self.assertWarns(DeprecationWarning) as caught:
                self.assertEqual(given(**{old: value}), {new: wanted})
            self.assertIn(f"the parameter {old} is now called {new}", str(caught.warning))
            self.assertEqual(caught.filename, __file__)
            with warnings.catch_warnings():
                warnings.simplefilter("ignore")
                for both in ({old: value, new: wanted}, {new: wanted, old: value}):
                    with self.assertRaises(TypeError):
                        given(**both)

    def test_the_function(self):
        with self.assertWarns(DeprecationWarning), self.assertRaises(manifest.CargoError):
            manifest.report("/nowhere", is_workspace=True)
        with warnings.catch_warnings():
            warnings.simplefilter("error")
            with self.assertRaises(manifest.CargoError):
                manifest.report("/nowhere", workspace=True)
        with self.assertRaises(TypeError):
            manifest.report("/nowhere", is_workspac=True)

    def test_each_option_has_a_parameter_of_its_name(self):
        # These say what is printed, or are answered without a report.
        others = {"manifest_path", "only", "format", "summary", "fail_on", "known", "wide", "quiet",
                  "version", "help", "schema", "resolved", "all_features", "no_default_features"}
        options = {action.dest for action in _command.parser()._actions} - others
        plural = {"target": "targets", "package": "packages", "kind": "kinds"}
        wanted = {plural.get(name, name) for name in options}
        report = set(inspect.signature(manifest.report).parameters)
        resolved = set(inspect.signature(manifest.resolved).parameters)
        self.assertEqual(wanted, (report | resolved) - {"environment", "progress"})
        self.assertEqual(resolved - report, {"features", "config"})
