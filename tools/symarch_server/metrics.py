"""What is counted, as Prometheus reads it."""
from __future__ import annotations

import threading
from collections import Counter
from dataclasses import dataclass, field
from itertools import chain, starmap
from typing import Dict, Iterator, List, Mapping, Tuple

# The upper ends of the classes of seconds.
BUCKETS = (0.01, 0.03, 0.1, 0.3, 1.0, 3.0, 10.0, 30.0)
NUMBERS = {
    "images": "slices of images",
    "companions": "slices of dSYMs",
    "retirements": "slices that were withdrawn",
    "conflicts": "UUIDs and architectures for which several slices answer",
    "bytes": "bytes of the archive",
    "today": "bytes of the additions since the last fold",
    "levels": "bytes of the levels",
    "waiting": "bytes of retired slices that a fold removes",
}


@dataclass(eq=False)
class Metrics:
    """Counts of a process: of requests and their seconds by route, and of frames by what came of them."""

    lock: threading.Lock = field(default_factory=threading.Lock)
    requests: Counter[Tuple[str, str, int]] = field(default_factory=Counter)
    seconds: Dict[str, float] = field(default_factory=dict)
    classes: Dict[str, List[int]] = field(default_factory=dict)
    frames: Counter[str] = field(default_factory=Counter)

    def add_request(self, route: str, method: str, status: int, seconds: float) -> None:
        with self.lock:
            self.requests[route, method, status] += 1
            self.seconds[route] = self.seconds.get(route, 0.0) + seconds
            counts = self.classes.setdefault(route, [0] * (len(BUCKETS) + 1))
            for at, most in enumerate(BUCKETS):
                counts[at] += seconds <= most
            counts[-1] += 1

    def add_frames(self, counts: Mapping[str, int]) -> None:
        with self.lock:
            self.frames.update(counts)

    def lines(self, status: Mapping[str, object]) -> Iterator[str]:
        """All, with the numbers that `status` prints of the archive."""
        with self.lock:
            yield from family("symarch_requests_total", "counter", "requests by their route and status")
            yield from starmap(request_line, sorted(self.requests.items()))
            yield from family("symarch_request_seconds", "histogram", "how long requests took")
            yield from chain.from_iterable(map(self.histogram, sorted(self.classes)))
            yield from family("symarch_frames_total", "counter", "frames of reports by result")
            yield from (f'symarch_frames_total{{kind="{kind}"}} {count}' for kind, count in sorted(self.frames.items()))
        for name, about in NUMBERS.items():
            if isinstance(status.get(name), int):
                yield from family(f"symarch_archive_{name}", "gauge", about)
                yield f"symarch_archive_{name} {status[name]}"

    def histogram(self, route: str) -> Iterator[str]:
        counts = self.classes[route]
        for most, count in zip([*map(str, BUCKETS), "+Inf"], counts):
            yield f'symarch_request_seconds_bucket{{route="{route}",le="{most}"}} {count}'
        yield f'symarch_request_seconds_sum{{route="{route}"}} {self.seconds[route]:.6f}'
        yield f'symarch_request_seconds_count{{route="{route}"}} {counts[-1]}'


def request_line(key: Tuple[str, str, int], count: int) -> str:
    route, method, status = key
    return f'symarch_requests_total{{route="{route}",method="{method}",status="{status}"}} {count}'


def family(name: str, kind: str, about: str) -> List[str]:
    return [f"# HELP {name} {about}", f"# TYPE {name} {kind}"]
