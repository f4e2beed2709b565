"""Lets setuptools build in a folder of its own, so that pip leaves nothing beside the sources. What is built pyproject.toml says."""

import atexit
import shutil
import tempfile

import setuptools

FOLDER = tempfile.mkdtemp()
atexit.register(shutil.rmtree, FOLDER, ignore_errors=True)
setuptools.setup(options={"build": {"build_base": FOLDER}, "egg_info": {"egg_base": FOLDER}})
