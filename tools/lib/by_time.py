"""A queue by timestamps, as any simulator has it: what the run of a plan is compared with whose device takes a packet at each multiple of a time."""


def dropped_by_time(times, slots, period):
    """How many packets are dropped by a queue of so many slots, whose server takes a packet at each multiple of a time, and one that comes where it has none."""
    waiting, idle, dropped, last = 0, True, 0, times[0] if times else 0
    for time in times:
        served = time // period - last // period
        idle, waiting, last = idle or served > waiting, max(waiting - served, 0), time
        if idle:
            idle = False
        elif waiting < slots:
            waiting += 1
        else:
            dropped += 1
    return dropped
