"""Types of environments from other libraries, if these are installed, and what they lack."""

from __future__ import annotations

from typing import Any, Dict, Optional

try:
    from pettingzoo import ParallelEnv
except ImportError:  # then there are the same methods, and no common type
    ParallelEnv = object

try:
    from gymnasium import Env, register
except ImportError:
    class Env:  # type: ignore[no-redef]
        """What an environment calls of that of Gymnasium."""

        def reset(self, *, seed: Optional[int] = None, options: Optional[Any] = None) -> None:
            """Nothing is drawn here."""

    def register(*, id: str, entry_point: str) -> None:
        """Nobody makes environments by names here."""


class Parallel(ParallelEnv):  # type: ignore[misc]
    """An environment with PettingZoo's parallel interface, whose agents have spaces of their own.
    It is closed at the end of a `with`."""

    @property
    def num_agents(self) -> int:
        """How many agents play now."""
        return len(self.agents)

    @property
    def max_num_agents(self) -> int:
        """How many agents play in a game."""
        return len(self.possible_agents)

    @property
    def unwrapped(self) -> Parallel:
        """This environment."""
        return self

    @property
    def observation_spaces(self) -> Dict[str, Any]:
        """The space of each agent's observations."""
        return {agent: self.observation_space(agent) for agent in self.possible_agents}

    @property
    def action_spaces(self) -> Dict[str, Any]:
        """The space of each agent's actions."""
        return {agent: self.action_space(agent) for agent in self.possible_agents}

    def __str__(self) -> str:
        return str(self.metadata["name"])

    def __enter__(self) -> Any:
        return self

    def __exit__(self, *_: object) -> None:
        self.close()


__all__ = ["Env", "Parallel", "register"]
