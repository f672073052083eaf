"""Which of several sockets or pipes can be read. `select.select` takes no descriptor above 1,023, and a check may have more open."""

import select


def ready_to_read(sources, seconds):
    """Those of the sources that can be read, or are at their end, within these seconds."""
    poll = select.poll()
    for source in sources:
        poll.register(source, select.POLLIN)
    ready = {descriptor for descriptor, _ in poll.poll(max(0, seconds) * 1000)}
    return [source for source in sources if (source if isinstance(source, int) else source.fileno()) in ready]
