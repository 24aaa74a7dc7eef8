"""What the service did, as Prometheus reads it."""

import collections
import resource

from .editions import Editions

BOUNDS = (0.005, 0.01, 0.025, 0.05, 0.1, 0.25, 0.5, 1.0, 2.5, 5.0, 10.0, 30.0)  # seconds


class Metrics:
    """Counts of requests by path and status, and how long they took."""

    def __init__(self) -> None:
        self._requests: collections.Counter[tuple[str, int]] = collections.Counter()
        self._within: dict[str, list[int]] = {}
        self._seconds: collections.defaultdict[str, float] = collections.defaultdict(float)
        self.begun = 0

    def note(self, path: str, status: int, seconds: float) -> None:
        """A request was answered."""
        self._requests[path, status] += 1
        within = self._within.setdefault(path, [0] * (len(BOUNDS) + 1))
        for place, bound in enumerate((*BOUNDS, float("inf"))):
            within[place] += seconds <= bound
        self._seconds[path] += seconds

    def text(self, editions: Editions) -> str:
        """All of it."""
        return "\n".join([*self._of_requests(), *self._of_workers(editions)]) + "\n"

    def _of_requests(self) -> list[str]:
        lines = ["# HELP modeplan_requests_total Requests by path and HTTP status.", "# TYPE modeplan_requests_total counter"]
        lines += [f'modeplan_requests_total{{path="{path}",status="{status}"}} {count}'
                  for (path, status), count in sorted(self._requests.items())]
        lines += ["# HELP modeplan_request_seconds How long requests took.", "# TYPE modeplan_request_seconds histogram"]
        for path, within in sorted(self._within.items()):
            lines += [f'modeplan_request_seconds_bucket{{path="{path}",le="{bound}"}} {count}'
                      for bound, count in zip((*map(str, BOUNDS), "+Inf"), within)]
            lines += [f'modeplan_request_seconds_sum{{path="{path}"}} {self._seconds[path]:.6f}',
                      f'modeplan_request_seconds_count{{path="{path}"}} {within[-1]}']
        return lines

    def _of_workers(self, editions: Editions) -> list[str]:
        edition, counts = editions.current, editions.counts
        assert edition is not None
        rows = [
            ("requests_begun", "gauge", "Requests that are being answered.", self.begun),
            ("workers", "gauge", "Workers that have read the region.", edition.pool.alive),
            ("requests_waiting", "gauge", "Requests that wait for a worker.", edition.pool.waiting),
            ("workers_started_total", "counter", "Workers that were started.", counts.started),
            ("workers_lost_total", "counter", "Workers that died at a request.", counts.lost),
            ("workers_hung_total", "counter", "Workers that were ended since they took too long.", counts.hung),
            ("requests_repeated_total", "counter", "Requests that were asked again.", counts.repeated),
            ("requests_turned_away_total", "counter", "Requests for which no worker was free.", counts.turned_away),
            ("edition", "gauge", "The number of the edition of the region, from 1.", edition.number),
            ("edition_since_seconds", "gauge", "When the edition was opened, in seconds since 1970.", round(edition.since)),
            ("renewals_failed_total", "counter", "New editions that could not be used.", editions.failed),
            ("peak_memory_bytes", "gauge", "The most memory that the service had, without its workers.",
             resource.getrusage(resource.RUSAGE_SELF).ru_maxrss * 1024),
        ]
        return [line for name, kind, what, value in rows
                for line in (f"# HELP modeplan_{name} {what}", f"# TYPE modeplan_{name} {kind}", f"modeplan_{name} {value}")]
