"""A stand-in for `gymnasium` and `numpy`: spaces with the same names, attributes and ranges, as far
as the package uses them, so that its own can be tried where those are not installed."""

import contextlib
import random
import sys
import types
from importlib import import_module
from typing import Any, Dict as Mapping, Iterator, Optional, Sequence as Several, Tuple
from unittest import mock

from tests.package.cases import Case


class Space:
    """A set of values."""

    def __init__(self) -> None:
        self._source = random.Random()

    def seed(self, seed: Optional[int] = None) -> None:
        self._source.seed(seed)
        for part in self._parts():
            part.seed(None if seed is None else self._source.getrandbits(32))

    def _parts(self) -> "Iterator[Space]":
        return iter(())

    def sample(self) -> Any:
        raise NotImplementedError

    def contains(self, x: Any) -> bool:
        raise NotImplementedError

    def __contains__(self, x: Any) -> bool:
        return self.contains(x)


class Text(Space):
    """Texts of `min_length` to `max_length` characters of `charset`."""

    def __init__(self, max_length: int, *, min_length: int = 1, charset: str = "ab") -> None:
        super().__init__()
        self.max_length, self.min_length, self.charset = max_length, min_length, charset

    def sample(self) -> str:
        length = self._source.randint(self.min_length, self.max_length)
        return "".join(self._source.choices(self.charset, k=length))

    def contains(self, x: Any) -> bool:
        return (isinstance(x, str) and self.min_length <= len(x) <= self.max_length
                and set(x) <= set(self.charset))


class Sequence(Space):
    """Any number of values of one space, as a tuple alone."""

    def __init__(self, space: Space) -> None:
        super().__init__()
        self.feature_space = space

    def sample(self) -> Any:
        return tuple(self.feature_space.sample() for _ in range(self._source.randrange(4)))

    def contains(self, x: Any) -> bool:
        return isinstance(x, tuple) and all(map(self.feature_space.contains, x))

    def _parts(self) -> Iterator[Space]:
        return iter((self.feature_space,))


class Dict(Space):
    """A value of each of some spaces, by their keys."""

    def __init__(self, spaces: Mapping[str, Space]) -> None:
        super().__init__()
        self.spaces = dict(spaces)

    def sample(self) -> Any:
        return {key: space.sample() for key, space in self.spaces.items()}

    def contains(self, x: Any) -> bool:
        return (isinstance(x, dict) and x.keys() == self.spaces.keys()
                and all(space.contains(x[key]) for key, space in self.spaces.items()))

    def _parts(self) -> Iterator[Space]:
        return iter(self.spaces.values())

    def __getitem__(self, key: str) -> Space:
        return self.spaces[key]


class Box(Space):
    """Arrays of a shape, here tuples or lists, of numbers between two bounds; of no shape, one."""

    def __init__(self, low: float, high: float, shape: Tuple[int, ...] = (),
                 dtype: object = None) -> None:
        super().__init__()
        self.low, self.high, self.shape, self.dtype = low, high, shape, dtype

    def contains(self, x: Any) -> bool:
        return self._has(x, self.shape)

    def _has(self, x: Any, shape: Tuple[int, ...]) -> bool:
        if shape:
            return (isinstance(x, (list, tuple)) and len(x) == shape[0]
                    and all(self._has(part, shape[1:]) for part in x))
        kinds = (int,) if self.dtype == "int64" else (int, float)
        return isinstance(x, kinds) and self.low <= x <= self.high


class MultiDiscrete(Space):
    """Lists of whole numbers, each below its own bound."""

    def __init__(self, nvec: Several[int]) -> None:
        super().__init__()
        self.nvec = list(nvec)

    def sample(self) -> Any:
        return [self._source.randrange(count) for count in self.nvec]

    def contains(self, x: Any) -> bool:
        return len(x) == len(self.nvec) and all(
            0 <= number < count for number, count in zip(x, self.nvec))


class Env:
    """The interface of `gymnasium.Env`, as far as it says what `reset` does with a seed."""

    def reset(self, *, seed: Optional[int] = None, options: Optional[Any] = None) -> Any:
        """Nothing is drawn."""


def array(numbers: Any, dtype: object = None) -> Any:
    """A list in place of an array."""
    return list(numbers)


REGISTERED: Mapping[str, str] = {}  # by the names of environments, what makes them


def register(*, id: str, entry_point: str) -> None:
    """Remembers what makes an environment."""
    REGISTERED[id] = entry_point


@contextlib.contextmanager
def installed() -> Iterator[None]:
    """Lets these stand for `gymnasium` and `numpy`, and their importers be imported anew."""
    spaces = types.ModuleType("gymnasium.spaces")
    vars(spaces).update(Space=Space, Text=Text, Sequence=Sequence, Dict=Dict, Box=Box,
                        MultiDiscrete=MultiDiscrete)
    gymnasium, numpy = types.ModuleType("gymnasium"), types.ModuleType("numpy")
    vars(gymnasium).update(spaces=spaces, Env=Env, register=register)
    vars(numpy).update(array=array, int64="int64", float32="float32", asarray=lambda each: each)
    with mock.patch.dict(sys.modules, {"gymnasium": gymnasium, "gymnasium.spaces": spaces,
                                       "numpy": numpy}):
        for name in ("spaces", "numeric", "interfaces"):
            sys.modules.pop(f"geesefuton.learning.{name}", None)
        yield


class NumericCase(Case):
    """A test of `learning.numeric` and `learning.spaces`, which import these."""

    def setUp(self) -> None:
        super().setUp()
        self.enter(installed())
        self.numeric: Any = import_module("geesefuton.learning.numeric")
        self.spaces: Any = import_module("geesefuton.learning.spaces")

    def made(self, kind: str, *words: object, **how: object) -> Any:
        """A `Seat` or `Seats`, which is closed at the test's end."""
        made = getattr(self.numeric, kind)(*words, **how)
        self.addCleanup(made.close)
        return made
