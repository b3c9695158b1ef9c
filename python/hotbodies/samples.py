"""Systems of bodies to try things out with. Each has G = 1, a mass of 1 in all, and the same bodies for the same seed."""

import numpy as np


def uniform_box(count, seed=0):
    """Bodies of equal mass, spread evenly in a box of side 1 around 0.

    Returns:
        (ndarray, ndarray): positions of shape (count, 3) and masses of shape (count,), both float64.
    """
    draws = np.random.default_rng(seed)
    return draws.uniform(-0.5, 0.5, (count, 3)), np.full(count, 1 / count)


def plummer_sphere(count, seed=0, radius=1.0, farthest=20.0):
    """Bodies of equal mass by the density of Plummer (1911), (1 + r^2 / radius^2)^(-5/2), within some radii.

    Args:
        count: how many bodies.
        seed: of the draws.
        radius: the scale radius, within which 35 % of the mass lie.
        farthest: the radii within which all bodies are drawn.

    Returns:
        (ndarray, ndarray): positions of shape (count, 3) and masses of shape (count,), both float64.
    """
    draws = np.random.default_rng(seed)
    most = (1 + farthest**-2.0) ** -1.5  # the share of the mass within `farthest`
    shares = draws.uniform(0, most, count)
    radii = radius / np.sqrt(np.maximum(shares, 1e-12) ** (-2 / 3) - 1)
    ways = draws.normal(size=(count, 3))
    return ways * (radii / np.linalg.norm(ways, axis=1))[:, None], np.full(count, 1 / count)


def two_clusters(count, seed=0):
    """Two Plummer spheres that meet: one of three quarters of the mass, and one half as wide, 5 radii away.

    The heavy sphere has half of the bodies, so that there are two masses of bodies.

    Returns:
        (ndarray, ndarray): positions of shape (count, 3) and masses of shape (count,), both float64.
    """
    half = count // 2
    first, _ = plummer_sphere(half, seed)
    second, _ = plummer_sphere(count - half, seed + 1, radius=0.5)
    positions = np.concatenate([first, second + [5.0, 1.0, 0.0]])
    return positions, np.repeat([0.75 / max(half, 1), 0.25 / max(count - half, 1)], [half, count - half])


SAMPLES = {"uniform box": uniform_box, "Plummer sphere": plummer_sphere, "two clusters": two_clusters}
