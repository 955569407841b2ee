"""redis-py's commands over a `Cluster`. It needs redis-py.

    from slotroute import Cluster
    from slotroute.redis_py import wrap

    redis = wrap(Cluster.from_url("redis://127.0.0.1:7400"))
    redis.set("foo", 1)
"""

from __future__ import annotations

from typing import Any

from redis import ConnectionPool, Redis

from .cluster import Cluster


class NoConnections(ConnectionPool):
    """Connections of redis-py's own, of which there are none."""

    def get_connection(self, *_: Any, **__: Any) -> Any:
        raise NotImplementedError("shared links do not take this command")


class Answer:
    """A reply that came, as redis-py reads it from a connection."""

    def __init__(self, value: Any) -> None:
        self._value = value

    def read_response(self, *_: Any, **__: Any) -> Any:
        """The value of the reply. An error is raised."""
        if isinstance(self._value, Exception):
            raise self._value
        return self._value


class ClusterRedis(Redis):
    """The commands of redis-py's `Redis`, which a `Cluster` sends. Their values are those of
    redis-py, without `decode_responses`. What needs a connection of its own is a
    `NotImplementedError`, as `pubsub().subscribe(..)`, `monitor` and `transaction`. So is a
    pipeline's `watch`."""

    def __init__(self, cluster: Cluster) -> None:
        super().__init__(connection_pool=NoConnections())
        self._cluster = cluster

    def execute_command(self, *args: Any, **options: Any) -> Any:
        """The value of the reply to a command, with the errors of `Cluster.execute`."""
        [value] = self._values([args])
        return self.parse_response(Answer(value), args[0], **options)

    def pipeline(self, transaction: bool = False, shard_hint: None = None) -> ClusterPipeline:
        """Commands that are sent at once. There are no transactions: with one it is a
        `NotImplementedError`."""
        if transaction:
            raise NotImplementedError("a pipeline over a cluster is no transaction")
        return ClusterPipeline(self._cluster)

    def _values(self, commands: list[tuple[Any, ...]]) -> list[Any]:
        """The values of the replies to commands. redis-py writes some names as one word of two."""
        pipeline = self._cluster.pipeline()
        for name, *words in commands:
            pipeline.add(*str(name).split(" "), *words)
        return list(pipeline.execute(raise_on_error=False))


class ClusterPipeline(ClusterRedis):
    """Commands of redis-py that are sent at once. They are no transaction."""

    def __init__(self, cluster: Cluster) -> None:
        super().__init__(cluster)
        self._stack: list[tuple[tuple[Any, ...], dict[str, Any]]] = []

    def __len__(self) -> int:
        return len(self._stack)

    def __bool__(self) -> bool:
        return True

    def __exit__(self, *_: object) -> None:
        self.reset()

    def reset(self) -> None:
        """Drops the commands that are not sent yet."""
        self._stack.clear()

    def execute_command(self, *args: Any, **options: Any) -> Any:
        """Adds a command. Nothing is sent yet."""
        self._stack.append((args, options))
        return self

    def execute(self, raise_on_error: bool = True) -> list[Any]:
        """Sends all commands, and returns the value of each, as `slotroute.Pipeline.execute`
        does."""
        stack, self._stack = self._stack, []
        values = self._values([args for args, _ in stack])
        found = [self._parsed(value, *it) for value, it in zip(values, stack)]
        for it in found:
            if raise_on_error and isinstance(it, Exception):
                raise it
        return found

    def watch(self, *names: Any) -> Any:
        """Is refused: a watch belongs to one connection."""
        raise NotImplementedError("shared links do not take this command")

    def _parsed(self, value: Any, args: tuple[Any, ...], options: dict[str, Any]) -> Any:
        """The value of a reply as redis-py has it, or its error."""
        if isinstance(value, Exception):
            return value
        return self.parse_response(Answer(value), args[0], **options)


def wrap(cluster: Cluster) -> ClusterRedis:
    """redis-py's commands over a cluster. Closing them leaves the cluster open."""
    return ClusterRedis(cluster)
