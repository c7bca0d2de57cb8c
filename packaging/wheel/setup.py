"""The wheel's tag: any Python 3, on x86-64 Linux with the C library that the library inside needs."""
import os

from setuptools import Distribution, setup
from wheel.bdist_wheel import bdist_wheel


class WithLibrary(Distribution):
    def has_ext_modules(self):
        return True


class Wheel(bdist_wheel):
    def get_tag(self):
        return "py3", "none", f"manylinux_{os.environ['HEFRUDYL_GLIBC'].replace('.', '_')}_x86_64"


setup(cmdclass={"bdist_wheel": Wheel}, distclass=WithLibrary)
