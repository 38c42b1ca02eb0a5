"""Calls between two versions of random trees: an old proxy and a new stub, and the reverse, beside `run OLD NEW` and `run NEW OLD`."""
from typing import Dict, Iterator

from .base import Counts, Options, Trial
from .hosts import Host, family, printed
from .joined import compare

DIRECTIONS = (("old", "new"), ("new", "old"))


def pairs(options: Options) -> Iterator["tuple[str, Dict[str, Host]]"]:
    """Each of Android 14's backends, with its hosts of both versions."""
    hosts = {version: {host.name: host for host in family(options, options.seed, version)} for version in ("old", "new")}
    for name, host in hosts["old"].items():
        yield host.title, {"old": host, "new": hosts["new"][name]}


def run(options: Options) -> Counts:
    """Calls in both directions, of each backend."""
    counts = Counts()
    for title, hosts in pairs(options):
        judged = printed(options, "judge", hosts["old"].tree, hosts["new"].tree)
        if judged[:1] != ["yes"]:
            counts.differ("judge says of the random trees", *judged)
        for client, server in DIRECTIONS:
            counts.join(compare(options, hosts[client], hosts[server], f"{title}, {client} proxy to {server} stub", options.amount(13000)))
    return counts


def trials(options: Options) -> Iterator[Trial]:
    """One answer is turned, and the row of `inout` arguments is left out."""
    for title, hosts in pairs(options):
        for client, server in DIRECTIONS:
            for name, count in ("request", 60), ("reply", 60), ("outcome", 60), ("inout", 4000):
                if name == "inout" and client == "old":
                    continue
                yield Trial(f"{'without the row' if name == 'inout' else 'one answer turned'}, {name}, {title}, {client} proxy to {server} stub",
                            lambda name=name, count=count, client=client, server=server, hosts=hosts: compare(  # type: ignore
                                options.sabotaged(name), hosts[client], hosts[server], "", count))
