"""Rows of samples for the tests, and pictures of pixels, row after row."""

LOW, HIGH = -32768, 32767


def noise(rng, n):
    return [rng.randint(LOW, HIGH) for _ in range(n)]


def small(rng, n):
    return [rng.randint(-3, 3) for _ in range(n)]


def limits(rng, n):
    return [rng.choice((LOW, HIGH)) for _ in range(n)]


def sparse(rng, n):
    return [rng.choice((LOW, -16384, 16384, HIGH)) if rng.random() < 0.05 else 0 for _ in range(n)]


def walk(rng, n):
    samples, sample = [], rng.randint(-20000, 20000)
    for _ in range(n):
        sample = min(HIGH, max(LOW, sample + rng.randint(-400, 400)))
        samples.append(sample)
    return samples


def plateaus(rng, n):
    samples = []
    while len(samples) < n:
        samples += [rng.randint(LOW, HIGH)] * rng.randint(1, 80)
    return samples[:n]


def clicks(rng, n):
    samples = [rng.randint(-200, 200) for _ in range(n)]
    for _ in range(1 + n // 400):
        start, height = rng.randrange(n), rng.randint(5000, 30000)
        for d in range(min(60, n - start)):
            wave = (0, 5, 8, 5, 0, -5, -8, -5)[d % 8]
            samples[start + d] = min(HIGH, max(LOW, samples[start + d] + (height * wave >> 3 + d // 8)))
    return samples


DISTRIBUTIONS = (noise, small, limits, sparse, walk, plateaus, clicks)


def extremes(n):
    """Rows at the ends of the 16 bits, and changes at both ends of the row."""
    yield "alternating from low", [(LOW, HIGH)[k % 2] for k in range(n)]
    yield "alternating from high", [(HIGH, LOW)[k % 2] for k in range(n)]
    yield "step up in the middle", [LOW if k < n // 2 else HIGH for k in range(n)]
    yield "step down in the middle", [HIGH if k < n // 2 else LOW for k in range(n)]
    for sample in (LOW, HIGH, 1, -1, 16384, -16384):
        for place in sorted({0, 1, n // 2, n - 2, n - 1} & set(range(n))):
            yield f"single {sample} at {place}", [sample if k == place else 0 for k in range(n)]
    yield "first sample high in a low row", [HIGH] + [LOW] * (n - 1)
    yield "last sample low in a high row", [HIGH] * (n - 1) + [LOW]
