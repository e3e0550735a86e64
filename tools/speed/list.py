from bisect import insort


def main():
    l = []
    for i in range(1, 20001):
        insort(l, i * 7919 % 20011)
    n = 0
    for i in range(1, 20001):
        n = n + i * (l[i - 1]) % 1009
    print(n)


main()
