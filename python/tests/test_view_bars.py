"""The bars that the command `view` shows of the last minutes."""

import unittest

from wanzoche._bars import MOST, SECONDS, Bars


class AsBars(unittest.TestCase):
    def told(self, bars, now):
        return [bar.told() for bar in bars.all(now)]

    def test_bars(self):
        bars = Bars([(3, "write", 1)])
        bars.see(b"+2 start read: started 4\n2 use 4 look: used 7\n1 finish 3: finished\n", 100.0)
        bars.see(b"2 finish 4: finished\n3 start read: started 5\n", 102.5)
        wanted = [("write", 1, 3, None, 100.0, 1), ("read", 2, 4, 100.0, 102.5, 1), ("read", 3, 5, 102.5, None, 1)]
        self.assertEqual(self.told(bars, 103.0), wanted)
        self.assertEqual((bars.began(5), bars.began(4), bars.whole_since), (102.5, None, None))
        self.assertEqual(self.told(bars, 100.5 + SECONDS), wanted[1:])
        self.assertEqual(self.told(bars, 200.0 + SECONDS), wanted[2:])

    def test_short_ones_are_one_bar(self):
        bars = Bars()
        for number, moment in enumerate((10.0, 10.5, 11.0, 14.0)):
            bars.see(b"%d start read: started %d\n" % (1 + number // 2, number), moment)
            bars.see(b"%d finish %d: finished\n" % (1 + number // 2, number), moment + 0.25)
        bars.see(b"1 start write: started 4\n1 finish 4: finished\n", 14.5)
        wanted = [("read", None, 0, 10.0, 11.25, 3), ("read", 2, 3, 14.0, 14.25, 1), ("write", 1, 4, 14.5, 14.5, 1)]
        self.assertEqual(self.told(bars, 15.0), wanted)

    def test_no_more_than_so_many(self):
        bars = Bars()
        for number in range(MOST + 3):
            bars.see(b"1 start read: started %d\n" % number, 10.0 + number * 0.1)
        for number in range(MOST + 3):
            bars.see(b"1 finish %d: finished\n" % number, 1000.0 + number * 0.001)
        self.assertEqual((len(bars.all(1002.0)), bars.whole_since), (MOST, 1000.002))
        self.assertEqual((bars.all(1001.0 + SECONDS)[0].activation, bars.whole_since), (1000, None))

    def test_many_short_ones_make_few_bars(self):
        bars = Bars()
        for second in range(600):
            bars.see(b"".join(b"1 start read: started %d\n1 finish %d: finished\n" % (n, n) for n in range(50)), float(second))
        self.assertEqual((len(bars.all(600.0)), sum(bar.count for bar in bars.all(600.0))), (20, 30000))
