"""Says of the wheel that it has code of a machine, for any Python 3: scripts/release makes it."""
from setuptools import Distribution, setup
from wheel.bdist_wheel import bdist_wheel


class Machine(Distribution):
    def has_ext_modules(self):
        return True


class Wheel(bdist_wheel):
    def get_tag(self):
        return "py3", "none", self.plat_name


setup(distclass=Machine, cmdclass={"bdist_wheel": Wheel})
