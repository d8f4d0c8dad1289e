"""Turn-taking among sixteen stations, written from docs/SPECIFICATION.md alone. The marks of the stations that wait are the bits of a number."""

STATIONS = 16
FRESH = (0, STATIONS - 1)  # nobody waits, and a turn begins with station 0


def announced(marks, last, station):
    """What an announcement is answered, 0 or the number of the refusal, and the marks and the station served last afterwards."""
    if station >= STATIONS:
        return 17, marks, last
    if marks >> station & 1:
        return 18, marks, last
    return 0, marks | 1 << station, last


def turned(marks, last):
    """The station that a turn names, or None, and the marks and the station served last afterwards. A number above 15 counts as 15."""
    for step in range(STATIONS):
        station = (min(last, STATIONS - 1) + 1 + step) % STATIONS
        if marks >> station & 1:
            return station, marks & ~(1 << station), station
    return None, marks, last
