"""What a stream says beside the lines of `watch`: held back alerts, silence, and buckets that were forgotten."""

from __future__ import annotations

import time
from dataclasses import dataclass
from typing import Callable, Optional, Sequence

from .incoming import Ending
from .outputs import Held, Output, Several, Silent, report_trouble, sooner
from .reports import Place, RoundAlert, Told

# `watch` keeps 4,096 buckets of an aggregate, or 8 with at most 65,536 keys together. Of so many more places it is seen here whether
# they were forgotten.
MOST_TOLD, MOST_TOLD_BY_KEYS = 2 * 4096, 2 * 65536


@dataclass
class State:
    """A trigger that was told of: when, when its last alert came, that alert, and how many were held back."""

    told: float
    came: float
    last: RoundAlert
    count: int = 0


class Again(Several):
    """Hands a trigger's alert on, and holds back further ones for so many seconds after it; where it has keys, those of the same key.

    What was held back is told with the trigger's next alert behind these seconds, or once no alert has come for so long.
    """

    def __init__(
        self, outputs: Sequence[Output], seconds: float, now: Callable[[], float] = time.monotonic
    ) -> None:
        super().__init__(outputs)
        self.seconds, self.now = seconds, now
        # By trigger and key, the one whose last alert came first in front: there may be one for each source of a flood.
        self.states = dict[tuple[str, Optional[int]], State]()

    def told(self, it: Told) -> None:
        if not isinstance(it, RoundAlert) or not self._is_held(it):
            super().told(it)

    def _is_held(self, alert: RoundAlert) -> bool:
        key = alert.trigger, alert.by
        now, state = self.now(), self.states.pop(key, None)
        if state and now - state.told < self.seconds:
            state.count, state.last, state.came = state.count + 1, alert, now
            self.states[key] = state
            return True
        if state and state.count:
            self._tell(state, False)
        self.states[key] = State(now, now, alert)
        return False

    def _tell(self, state: State, is_over: bool) -> None:
        self.held(Held(state.last.trigger, state.count, state.last, is_over))

    def pause(self) -> None:
        now = self.now()
        while self.states:
            key, state = next(iter(self.states.items()))
            if now - state.came < self.seconds:
                break
            self._tell(state, True)
            del self.states[key]
        super().pause()

    def rest(self) -> float | None:
        first = next(iter(self.states.values()), None)
        return sooner(super().rest(), first.came + self.seconds - self.now() if first else None)

    def end(self, ending: Ending) -> None:
        self._tell_all()
        super().end(ending)

    def close(self) -> None:
        self._tell_all()
        super().close()

    def _tell_all(self) -> None:
        for state in self.states.values():
            if state.count:
                self._tell(state, False)
        self.states.clear()


class Silence(Several):
    """Says once that no packet came for so many seconds, and once that they come again."""

    def __init__(
        self, outputs: Sequence[Output], seconds: int, now: Callable[[], float] = time.monotonic
    ) -> None:
        super().__init__(outputs)
        self.seconds, self.now = seconds, now
        # How many records had come, and when the last of them did.
        self.records, self.came, self.is_silent = 0, now(), False

    def told(self, it: Told) -> None:
        if it.prefix > self.records:
            now = self.now()
            if self.is_silent:
                self.silent(Silent(self.records, int(now - self.came), True))
            self.records, self.came, self.is_silent = it.prefix, now, False
        super().told(it)

    def idle(self) -> None:
        # Not in `pause`: packets may wait to be read while an output is slow.
        now = self.now()
        if not self.is_silent and now - self.came >= self.seconds:
            self.is_silent = True
            self.silent(Silent(self.records, int(now - self.came), False))
        super().idle()

    def rest(self) -> float | None:
        mine = None if self.is_silent else self.came + self.seconds - self.now()
        return sooner(super().rest(), mine)


class Forgotten(Output):
    """Warns, once for each trigger, if a bucket is told again: it did not fit what `watch` keeps."""

    def __init__(self) -> None:
        self.seen, self.warned = dict[str, dict[Place, None]](), set[str]()

    def told(self, it: Told) -> None:
        if not isinstance(it, RoundAlert):
            return
        places = self.seen.setdefault(it.trigger, {})
        if it.place in places and it.trigger not in self.warned:
            self.warned.add(it.trigger)
            others = "4,096 others" if it.by is None else "8 others, or of 65,536 keys,"
            report_trouble(
                f"trigger `{it.trigger}` fires again in bucket {it.bucket}: `watch` had forgotten this bucket, as packets "
                f"of {others} came. Its value counts only what came since: state a greater `width`, or see whether the "
                "clock of the capture is right"
            )
        places.pop(it.place, None)
        places[it.place] = None
        if len(places) > (MOST_TOLD if it.by is None else MOST_TOLD_BY_KEYS):
            del places[next(iter(places))]
