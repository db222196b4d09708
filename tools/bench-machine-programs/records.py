class Point:
    __slots__ = ("x", "y")
    def __init__(self, x, y):
        self.x = x
        self.y = y
class Counted:
    __slots__ = ("point", "count")
    def __init__(self, point, count):
        self.point = point
        self.count = count
def raised(counted):
    return Counted(counted.point, counted.count + 1)
def main():
    total = 0
    for i in range(1, 1000001):
        counted = raised(Counted(Point(i, i), 0))
        total = total + counted.point.x + counted.count
    print(total)
main()
