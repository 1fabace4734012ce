"""Whether groups were over their limits at any moment, by what happened to their hosts."""


def over(groups, moves):
    """The first group with more of its hosts down than it may lose, or None. `groups` has the hosts and the limit of each, and a move says of a host whether it goes down or comes up."""
    down = set()
    for host, goes in moves:
        (down.add if goes else down.discard)(host)
        for group, (hosts, limit) in groups.items():
            if len(down & set(hosts)) > limit:
                return f"{sorted(down & set(hosts))} of {group} down, and it may lose {limit}"
    return None
