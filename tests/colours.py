"""How far two colours are apart for those who see with fewer kinds of cones than three."""

# How the colours of red, green and blue light are seen without one kind of cones (Machado and others, 2009).
SIGHTS = {
    "with all cones": ((1, 0, 0), (0, 1, 0), (0, 0, 1)),
    "without red cones": ((0.152286, 1.052583, -0.204868),
                          (0.114503, 0.786281, 0.099216), (-0.003882, -0.048116, 1.051998)),
    "without green cones": ((0.367322, 0.860646, -0.227968),
                            (0.280085, 0.672501, 0.047413), (-0.011820, 0.042940, 0.968881)),
    "without blue cones": ((1.255528, -0.076749, -0.178779),
                           (-0.078411, 0.930809, 0.147602), (0.004733, 0.691367, 0.303900)),
}
XYZ = ((0.4124, 0.3576, 0.1805), (0.2126, 0.7152, 0.0722), (0.0193, 0.1192, 0.9505))
WHITE = (0.9505, 1.0, 1.089)


def light_of(colour):
    """The parts of red, green and blue light of a colour."""
    parts = [int(colour[i:i + 2], 16) / 255 for i in (1, 3, 5)]
    return [it / 12.92 if it <= 0.04045 else ((it + 0.055) / 1.055) ** 2.4 for it in parts]


def times(matrix, vector):
    """A matrix times a vector."""
    return [sum(a * b for a, b in zip(row, vector)) for row in matrix]


def lab_of(light):
    """A colour in CIELAB."""
    x, y, z = (it ** (1 / 3) if it > 0.008856 else 7.787 * it + 16 / 116
               for it in (a / b for a, b in zip(times(XYZ, light), WHITE)))
    return 116 * y - 16, 500 * (x - y), 200 * (y - z)


def distance(one, other, sight):
    """The distance of two colours in CIELAB, for a sight; one of 2.3 is just seen, side by side."""
    seen = (lab_of([min(1, max(0, it)) for it in times(sight, light_of(colour))]) for colour in (one, other))
    return sum((a - b) ** 2 for a, b in zip(*seen)) ** 0.5
