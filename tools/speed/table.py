def main():
    t = {}
    for i in range(1, 100001):
        t[i * 7919 % 100003] = i
    n = 0
    for i in range(1, 100001):
        n = n + t[i * 7919 % 100003]
    print(n, len(t))


main()
