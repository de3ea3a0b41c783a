"""What of the program is asked for.  It is global: one run has one setting."""

COMMANDS = ('run', 'replay', 'generate', 'audit', 'mal')


class Settings:
    def __init__(self):
        self.commands = {'run', 'replay', 'generate'}   # what the program has
        self.plans = 'optimised'    # or 'plain': EXPLAIN and runs with the plans before the optimisers
        self.pool = True            # False: nothing is asked of a pool, and none is printed
        self.cover = 'cheapest'     # or 'greedy': which selections cover a range together

    def add(self, names):
        """Commands that a program may have besides, as 'audit,mal'."""
        for name in names.split(','):
            assert name in COMMANDS, name
            self.commands.add(name)


CURRENT = Settings()


def optimised():
    return CURRENT.plans == 'optimised'
