#!/usr/bin/env python3
"""An independent drive of one motor, run over 10,000 random cycles in 200 blocks.

    python3 reference/drive_steps.py

Prints a checksum a block, over the state, the output and every bit that the motor remembers after each cycle.
They stand as the table in crates/drive_cases/src/table.rt, which the motor's own cycles are held to.
"""

MASK = (1 << 64) - 1
BLOCKS, CYCLES = 200, 50


class Draw:
    def __init__(self, seed):
        self.state = seed

    def next(self):
        self.state = (self.state * 6364136223846793005 + 1442695040888963407) & MASK
        x = self.state
        x ^= x >> 33
        x = (x * 0xFF51AFD7ED558CCD) & MASK
        return x ^ (x >> 33)

    def below(self, n):
        return self.next() % n

    def small(self, n):
        value = self.below(n)
        return value >> self.below(24)

    def signed(self, n):
        value = self.small(n)
        return -value if self.below(2) == 1 else value


def clip(z, size):
    return max(-size, min(z, size))


class Motor:
    """Killed 0, closed 1, tripped 2 or 3 by its cause."""

    def __init__(self, draw):
        self.kp = draw.small(8388608)
        self.kd, self.kv, self.ka, self.ki = (draw.small(32768) for _ in range(4))
        self.error_limit = 1 + draw.small(1048576)
        size = draw.small(70368744177665) >> draw.below(24)
        self.integrator_limit = -size if draw.below(2) == 1 else size
        self.following_limit = 2000 + draw.small(8388608)
        self.output_limit = 1 + draw.below(32767)
        self.notch = [draw.signed(2097153) for _ in range(4)]
        self.stop(0)

    def stop(self, state):
        self.state = state
        self.target = self.last_target = self.last_position = 0
        self.last_velocity = self.integrator = self.output = 0
        self.floats = [0.0, 0.0, 0.0, 0.0]

    def close(self, x):
        self.stop(1)
        self.target = self.last_target = self.last_position = x

    def cycle(self, x):
        if self.state != 1:
            return
        following = self.target - x
        if abs(following) > self.following_limit:
            return self.stop(2)
        error = clip(following, self.error_limit)
        commanded = clip(self.target - self.last_target, 1048576)
        actual = clip(x - self.last_position, 1048576)
        total = self.integrator + self.ki * error
        if not (abs(self.output) == self.output_limit and abs(total) > abs(self.integrator)):
            self.integrator = clip(total, abs(self.integrator_limit))
        if self.integrator_limit < 0 and abs(self.integrator) == abs(self.integrator_limit):
            return self.stop(3)
        mixed = 128 * error + self.kv * commanded + self.ka * (commanded - self.last_velocity)
        mixed += -self.kd * actual + self.integrator // 65536
        u = float(self.kp * mixed // 8388608)
        u1, u2, y1, y2 = self.floats
        n1, n2, d1, d2 = (n / 1048576.0 for n in self.notch)
        y = (((u + n1 * u1) + n2 * u2) - d1 * y1) - d2 * y2
        limit = float(self.output_limit)
        y = limit if y > limit else y if y >= -limit else -limit
        self.floats = [u, u1, y, y1]
        self.output = int(y)
        self.last_target, self.last_position, self.last_velocity = self.target, x, commanded


def bits(value):
    import struct

    return struct.unpack("<Q", struct.pack("<d", value))[0]


def checksum(motor, h):
    def take(v):
        nonlocal h
        h = ((h ^ v) * 0x100000001B3) & MASK

    take(motor.state)
    for z in (motor.output, motor.target, motor.last_target, motor.last_position, motor.last_velocity, motor.integrator):
        take(abs(z))
        take(1 if z < 0 else 0)
    for value in motor.floats:
        take(bits(value))
    return h


def block(seed):
    draw = Draw(seed)
    motor = Motor(draw)
    x = draw.below(2000001) - 1000000
    motor.close(x)
    h = 0xCBF29CE484222325
    for _ in range(CYCLES):
        if draw.below(4) == 0 and motor.state == 1:
            motor.target = x + draw.below(4001) - 2000
        x += draw.below(2001) - 1000
        motor.cycle(x)
        h = checksum(motor, h)
    return h, motor.state


if __name__ == "__main__":
    ends = [block(seed) for seed in range(BLOCKS)]
    for h, _ in ends:
        print(f"0x{h:016x}")
    import collections
    import sys

    print(dict(collections.Counter(state for _, state in ends)), file=sys.stderr)
