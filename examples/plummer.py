#!/usr/bin/env python3
"""A Plummer sphere: its accelerations by the proved program on 4 ranks, beside direct sums, and a picture.

usage: examples/plummer.py [COUNT] [PICTURE]      2000 bodies and plummer.png where nothing is said

The parts between `# %%` are the cells of a notebook, for editors that know them. It wants NumPy, and matplotlib for the
picture (Debian: python3-numpy, python3-matplotlib). The program is the one of this repository: `./hot` builds it.
"""

# %% The package, from this repository where it is not installed
import sys
from pathlib import Path

try:
    import hotbodies
except ImportError:
    sys.path.insert(0, str(Path(__file__).resolve().parents[1] / "python"))
    import hotbodies
import numpy as np
from hotbodies.samples import plummer_sphere

COUNT = int(sys.argv[1]) if len(sys.argv) > 1 else 2000
PICTURE = sys.argv[2] if len(sys.argv) > 2 else "plummer.png"
EPS = 0.02  # the softening, in scale radii

# %% Bodies with G = 1, a mass of 1 together and a scale radius of 1
positions, masses = plummer_sphere(COUNT, seed=7)

# %% Accelerations: opening ratio 0.7, by 4 ranks that walk one tree together
found = hotbodies.accelerations(positions, masses, theta=0.7, eps=EPS, ranks=4)

# %% The same from all pairs: by the program at ratio 0, and by NumPy in floats
pairs = hotbodies.accelerations(positions, masses, theta=0, eps=EPS, ranks=4)
truth = hotbodies.direct_accelerations(positions, masses, EPS)
for name, pulls in (("ratio 0.7", found), ("ratio 0", pairs)):
    errors = hotbodies.Errors.of(hotbodies.relative_errors(pulls, truth))
    print(f"{name:>9} against direct sums: median {errors.median:.1e}, 99 % {errors.most:.1e}, largest {errors.largest:.1e}")

# %% Against the smooth sphere, whose pull at a radius r is r / (1 + r^2)^(3/2)
radii = np.linalg.norm(positions, axis=1)
inward = -(found * positions).sum(axis=1) / radii
smooth = radii / (1 + radii**2) ** 1.5
print(f"the pull inward is {np.median(inward / smooth):.3f} times that of the smooth sphere, in the median")

# %% The picture: the bodies with their accelerations, and the pull inward by radius
try:
    import matplotlib
except ImportError:
    sys.exit("no picture: matplotlib is not there (Debian: python3-matplotlib)")
matplotlib.use("Agg")
import matplotlib.pyplot as plt

figure, (left, right) = plt.subplots(1, 2, figsize=(10, 4.6), layout="constrained")
sizes = np.linalg.norm(found, axis=1)
arrows = left.quiver(*positions[:, :2].T, *found[:, :2].T, sizes, angles="xy", width=0.003)
figure.colorbar(arrows, ax=left, label="acceleration")
left.set(xlim=(-3, 3), ylim=(-3, 3), aspect="equal", xlabel="x", ylabel="y", title=f"{COUNT} bodies")
right.loglog(radii, np.abs(inward), ".", markersize=2, label="hot, ratio 0.7")
line = np.geomspace(0.05, 20, 200)
right.loglog(line, line / (1 + line**2) ** 1.5, label="smooth sphere")
right.set(xlabel="radius", ylabel="pull inward", xlim=(0.05, 20), ylim=(1e-3, 1))
right.legend()
figure.savefig(PICTURE, dpi=110)
print(f"the picture is {PICTURE}")
