"""The name that scene.library had, for programs that still import it by that."""
from scene.library import *  # noqa: F401,F403  pylint: disable=wildcard-import,unused-wildcard-import
