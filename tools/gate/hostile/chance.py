"""Numbers that look random, and are the same on each machine: xorshift64*, seeded by a number."""
SEED = 20_240_611
MASK = (1 << 64) - 1


class Chance:
    def __init__(self, number):
        self.state = (SEED + (number + 1) * 0x9E3779B97F4A7C15) & MASK or 1
        for _ in range(4):
            self.advance()

    def advance(self):
        it = self.state
        it ^= it >> 12
        it = (it ^ it << 25) & MASK
        it ^= it >> 27
        self.state = it
        return it * 0x2545F4914F6CDD1D & MASK

    def below(self, count):
        return (self.advance() >> 32) * count >> 32

    def between(self, least, greatest):
        return least + self.below(greatest - least + 1)

    def is_one_in(self, count):
        return self.below(count) == 0

    def one_of(self, things):
        return things[self.below(len(things))]

    def some_of(self, things, count):
        return [self.one_of(things) for _ in range(count)]
