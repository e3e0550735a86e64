from fractions import Fraction


def main():
    for k in range(1000):
        n = Fraction(0)
        for i in range(1, 41):
            n = n + Fraction(1, i)
    print(n)


main()
