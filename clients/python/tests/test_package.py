"""The examples of the docstrings, and that whatever is public has one."""

import doctest
import importlib
import inspect
import pkgutil
import unittest

import lundaspro

MODULES = [lundaspro] + [importlib.import_module(found.name) for found in pkgutil.walk_packages(lundaspro.__path__, "lundaspro.")]


class Package(unittest.TestCase):
    def test_examples(self):
        tried = 0
        for module in MODULES:
            answer = doctest.testmod(module)
            self.assertEqual(answer.failed, 0, module.__name__)
            tried += answer.attempted
        self.assertGreater(tried, 200)

    def test_every_public_name_has_an_example(self):
        for name in lundaspro.__all__:
            value = getattr(lundaspro, name)
            if inspect.isclass(value) or inspect.isfunction(value):
                self.assertIn(">>>", value.__doc__, name)
            if inspect.isclass(value) and value.__module__.startswith("lundaspro"):
                for member, method in vars(value).items():
                    if isinstance(method, (classmethod, property, staticmethod)) or inspect.isfunction(method):
                        if not member.startswith("_"):
                            self.assertIn(">>>", method.__doc__ or "", f"{name}.{member}")

    def test_typed(self):
        from importlib.resources import files

        self.assertTrue(files(lundaspro).joinpath("py.typed").is_file())
        for name in lundaspro.__all__:
            value = getattr(lundaspro, name)
            if inspect.isfunction(value):
                self.assertIn("return", value.__annotations__, name)


if __name__ == "__main__":
    unittest.main()
